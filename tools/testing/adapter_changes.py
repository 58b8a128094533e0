"""Checks of the debug adapter: values that are set while the program stands still, of which an editor hears and of which it does not, and what opens
of them; lines of the console that end the session; counts by a comparison; and sources whose paths are spelled otherwise."""

from .adapter_conditions import SOURCE, X, hit, launched
from .adapter_frames import RECURSION, at_depth_3, row, written
from .adapter_members import need, same
from .adapter_targets import at_widths

CHANGE = {"areas": ["variables"]}


def events_behind(client, command, **arguments):
    """The names and bodies of the events behind the response to a request: those that come before the response to the next one."""
    client.answer(command, arguments)
    client.ask("threads")
    events, client.events = client.events, []
    return events


def typed(client, line, **frame):
    return events_behind(client, "evaluate", expression=line, context="repl", **frame)


def begun(client, source, hears, width=4):
    client.ask("initialize", adapterID="rinddecade", **hears)
    client.ask("launch", program=str(source), width=width)
    client.event("initialized")
    client.source = str(source)
    return client.begin()


# What an editor says of changes: nothing, or by no truth value, is no.
HEARS = [({"supportsInvalidatedEvent": True}, True), ({"supportsInvalidatedEvent": False}, False), ({}, False), ({"supportsInvalidatedEvent": "true"}, False)]


def hears_of_changes(client, examples):
    """One event behind each value that is set, for an editor that asks for it; none behind what sets nothing or moves."""
    for hears, is_told in HEARS:
        told = [("invalidated", CHANGE)] if is_told else []
        begun(client, examples / "first.ispc", hears)
        client.move("next")
        local = client.scopes(1)[0]
        same(events_behind(client, "setVariable", variablesReference=local, name="x", value="7"), told)
        same(events_behind(client, "setExpression", expression="x[1]", value="8"), told)
        for line in ("set var x = 9", "set x = 3", "set variable x[0] = 4", "  set var x[2] = 5"):
            same((line, typed(client, line)), (line, told))
        same(client.value("x"), "4 3 5 3")
        for line in ("x", "x + 1", "print x", "set var x = nothing", "set var y = 1", "set x", "info locals", "break 3", "set record full insn-number-max 10", "help"):
            same((line, typed(client, line)), (line, []))
        same(events_behind(client, "setVariable", variablesReference=local, name="x", value="none"), [])
        same(events_behind(client, "setExpression", expression="1", value="8"), [])
        same(events_behind(client, "evaluate", expression="set var x = 9", context="watch"), [])
        same([name for name, _ in typed(client, "step")], ["stopped"])
        same([name for name, _ in events_behind(client, "stepBack", threadId=1)], ["stopped"])
        client.again()
    client.ask("initialize", adapterID="rinddecade")
    client.end()


def opens_what_is_set(client, width):
    """A variable that is set is told with the reference of its lanes, a lane and a value of one lane with none."""
    with written(RECURSION) as source:
        at_depth_3(client, source, width)
        local, file = client.scopes(3)[0], client.scopes(3)[2]
        lanes = lambda reference: list(client.values(reference).values())
        for depth in (3, 2):
            told = client.ask("setExpression", expression="r", value="-4", frameId=depth)
            same((told["value"], lanes(told["variablesReference"])), (row([-4] * width), ["-4"] * width))
        told = client.ask("setVariable", variablesReference=local, name="r", value="6")
        same((told["value"], lanes(told["variablesReference"])), (row([6] * width), ["6"] * width))
        opened = client.variables(local)["r"]["variablesReference"]
        same(client.ask("setVariable", variablesReference=opened, name="r[1]", value="9"), {"value": "9", "variablesReference": 0})
        same(lanes(opened)[:3], ["6", "9", "6"])
        same(client.ask("setVariable", variablesReference=file, name="total", value="9"), {"value": "9", "variablesReference": 0})
        same(client.ask("setExpression", expression="table[1]", value="true"), {"value": "true", "variablesReference": 0})
        client.end()


# Words that end the session, as at the prompt.
ENDINGS = ("quit", "q", "exit", " quit ")
NAMED = "export void go() {\n    int q = programIndex;\n    uniform int exit = 3;\n    q += exit;\n}\n"


def quits(client, examples):
    """Those words end the session as the stop button does: what is there can be looked at until the editor disconnects."""
    for line in ENDINGS:
        client.launch(examples / "first.ispc")
        client.begin()
        same(client.move("next")["text"], "at 3:5 go depth 1 lanes 1111")
        told = client.ask("evaluate", expression=line, context="repl")
        same((line, told), (line, {"result": "", "variablesReference": 0}))
        same(client.event("terminated"), {})
        same(client.value("x"), "0 3 6 9")
        client.again()
    client.launch(examples / "first.ispc")
    client.begin()
    for line in ("quit 1", "quitting", "exits"):
        client.refused("evaluate", expression=line, context="repl")
    client.refused("evaluate", expression="quit", context="watch")
    same(typed(client, "x"), [])
    client.end()


def names_that_quit(client, examples):
    """A word that is the name of a variable in the frame ends nothing there."""
    with written(NAMED) as source:
        client.launch(source)
        client.breakpoints(4)
        client.begin()
        client.move("continue")
        same(client.ask("evaluate", expression="exit", context="repl")["result"], "exit = 3")
        for line in ("exit", "q", " exit"):
            same((line, typed(client, line)), (line, []))
        same([name for name, _ in typed(client, "quit")], ["terminated"])
        client.end()


# Counts that let a breakpoint stop the third time and from then on, and the fourth time; and what is no count.
FROM_THE_THIRD, FROM_THE_FOURTH = ("3", ">=3", ">= 3", " 3 ", " >=  3 ", ">2", "> 2"), (">3", " > 3", "4")
NO_COUNTS = ("==3", "<=3", "< 3", "%3", "% 3", "3 %", ">=", ">", "> =3", ">>3", "=3", ">= 0", "0", ">10000000", ">= 10000001", ">-1", ">= x", " ", "3.0", "0x3")
LAST_COUNTS = ("10000000", ">= 10000000", "> 9999999", "> 0", ">=1")
NO_COUNT = "its count is none of `N`, `>= N` and `> N`, with a first stop from 1 to 10000000"


def counts(client, examples):
    """A count by a comparison begins at its stop, or behind it."""
    with written(SOURCE) as path:
        for forms, first in ((FROM_THE_THIRD, 2), (FROM_THE_FOURTH, 3)):
            for form in forms:
                [number] = launched(client, path, (X, {"hitCondition": form}), stopOnEntry=False)
                hit(client, client.begin(), number, X, first)
                hit(client, client.move("continue"), number, X, first + 1)
                client.again()
        client.launch(path)
        client.begin()
        asked = [{"line": X, "hitCondition": it} for it in (*NO_COUNTS, *LAST_COUNTS)]
        made = client.ask("setBreakpoints", source={"path": client.source}, breakpoints=asked)["breakpoints"]
        same([(it["hitCondition"], told.get("message")) for it, told in zip(asked, made)], [*((it, NO_COUNT) for it in NO_COUNTS), *((it, None) for it in LAST_COUNTS)])
        client.end()


# Paths of a source in a folder that is named by its last part, by what stands for each; and paths of other files.
SPELLINGS = ("{whole}/./source.ispc", "{whole}//source.ispc", "{whole}/a/../source.ispc", "{whole}/../{last}/source.ispc", "/..{whole}/source.ispc", "/.{whole}/b/./../source.ispc")
OTHERS = ("{whole}/source.isp", "{whole}/a/source.ispc", "{whole}/../source.ispc", "{whole}", "source.ispc", "{last}/source.ispc", "/source.ispc", "", "..")


def knows(client, path):
    """Whether a path is that of the program's source, by each request that has one."""
    made = client.ask("setBreakpoints", source={"path": path}, breakpoints=[{"line": 2}])["breakpoints"]
    places = client.ask("breakpointLocations", source={"path": path}, line=2)["breakpoints"]
    targets = client.ask("gotoTargets", source={"path": path}, line=2)["targets"]
    same((len(places), len(targets)), (1, 2) if made[0]["verified"] else (0, 0))
    return made[0]["verified"]


def sources_spelled_otherwise(client, examples):
    """A source is the program's by each spelling of its path; and a program whose path is not whole is known by whole paths that end so."""
    with written("export void go() {\n    int x = programIndex;\n}\n") as source:
        folder = source.parent
        (folder / "a").mkdir()
        paths = lambda forms: [it.format(whole=folder, last=folder.name) for it in forms]
        client.launch(source)
        client.begin()
        for path in (str(source), *paths(SPELLINGS)):
            need(knows(client, path), f"{path} is another source")
        for path in paths(OTHERS):
            need(not knows(client, path), f"{path} is the program's source")
        client.end()
        command = client.command
        client.command = ["sh", "-c", f'cd "{folder}" && exec "$@"', "sh", *command]
        for program in ("source.ispc", "./a/../source.ispc", f"../{folder.name}/source.ispc"):
            client.start()
            client.launch(program)
            client.begin()
            for path in (program, *([] if program.startswith("..") else [str(source), *paths(SPELLINGS)])):
                need(knows(client, path), f"{path} is another source than {program}")
            need(not knows(client, f"{folder}/another.ispc"), "another source")
            client.end()
        client.command = command


CHANGE_CHECKS = [hears_of_changes, *at_widths(opens_what_is_set), quits, names_that_quit, counts, sources_spelled_otherwise]
