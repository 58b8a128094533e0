"""Checks of the debug adapter: which data breakpoints an editor is offered, where names hide one another.

The local variable `x` of `go` hides that of the file, the parameter `far` of `inner` too.
"""

from .adapter_frames import written
from .adapter_members import WAITS, same

SOURCE = """uniform int x = 1;
int far = 0;
uniform int table[3];
void inner(uniform int far) {
    far += 1;
}
export void go() {
    x += 1;
    int y = 0;
    uniform int x = 5;
    inner(x);
    if (programIndex > 1) {
        far = 2;
    }
    table[1] = x;
}
"""
IN_INNER, IN_IF, TABLE = 5, 13, 15


def offered(client, name, reference=None, frame=None):
    """What can be watched of a name, as an editor asks for it; and it is watched then, or nothing is."""
    given = {"variablesReference": reference, "frameId": frame}
    target = client.ask("dataBreakpointInfo", name=name, **{key: value for key, value in given.items() if value is not None})["dataId"]
    if target is not None:
        [made] = client.ask("setDataBreakpoints", breakpoints=[{"dataId": target}])["breakpoints"]
        same(made["verified"], True)
        listed = client.ask("evaluate", expression="info breakpoints", context="repl")["result"].splitlines()
        same([line for line in listed if " watch " in line], [f"{made['id']} watch {target}"])
    client.ask("setDataBreakpoints", breakpoints=[])
    return target


def hidden_names(client, examples):
    """A local variable or a parameter is no watch of the variable of the file that it hides; that is offered by the scope of the file still."""
    with written(SOURCE) as path:
        client.launch(path)
        client.begin()
        own, _, of_file = client.scopes(1)
        far = client.variables(of_file)["far"]["variablesReference"]
        elements = client.variables(of_file)["table"]["variablesReference"]
        # Nothing hides the variable of the file yet: this is that of the expression.
        same([offered(client, "x", frame=1), offered(client, "x", own), offered(client, "x", of_file), offered(client, "x")], ["x", None, "x", "x"])
        client.breakpoints(IN_INNER, IN_IF, TABLE)
        client.move("continue")
        same([name for _, _, name in client.place()], ["inner [1111]", "go [1111]"])
        arguments = client.scopes(2)[1]
        same([offered(client, "x", own), offered(client, "x", of_file), offered(client, "x", frame=1), offered(client, "x", frame=2)], [None, "x", None, "x"])
        same([offered(client, "far", arguments), offered(client, "far[1]", of_file), offered(client, "far[1]", far)], [None, "far[1]", "far[1]"])
        same([offered(client, "far", frame=2), offered(client, "far[1]", frame=2), offered(client, "far[1]", frame=1)], [None, None, "far[1]"])
        # A reference counts before a frame; 0 is none, and neither is a frame that is not there one to look in.
        same([offered(client, "x", of_file, 1), offered(client, "x", own, 2), offered(client, "x", 0, 1), offered(client, "x", 0, 2)], ["x", None, None, "x"])
        same([offered(client, "x", frame=3), offered(client, "x", frame=0), offered(client, "x", 31)], [None, None, None])
        same([offered(client, "table[2]", elements), offered(client, "table[3]", elements), offered(client, "table[1 + 1]", frame=1)], ["table[2]", None, None])
        client.move("continue")
        y = client.variables(own)["y"]["variablesReference"]
        same([offered(client, "y[3]", y), offered(client, f"y[0]{WAITS}", y), offered(client, f"far[0]{WAITS}", far)], [None, None, "far[0]"])
        same(offered(client, "far[4]", far), None)
        client.end()


def what_is_offered(client, examples):
    """What is offered and set is what was asked for: the variable of the file stops where it changes, and the local one of its name nowhere."""
    with written(SOURCE) as path:
        client.launch(path)
        client.begin()
        of_file = client.scopes(1)[2]
        target = client.ask("dataBreakpointInfo", name="x", variablesReference=of_file)["dataId"]
        [made] = client.ask("setDataBreakpoints", breakpoints=[{"dataId": target}])["breakpoints"]
        stop = client.move("continue")
        same((stop["reason"], stop["hitBreakpointIds"], client.place()[0][0], client.value("x")), ("data breakpoint", [made["id"]], 9, "2"))
        same(client.move("continue")["text"], "ended")
        client.end()


WATCHED_CHECKS = [hidden_names, what_is_offered]
