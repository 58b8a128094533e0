"""What an editor is told of the examples, from a launch to the end: steps and the way back, watches, breakpoints, variables, frames and faults."""

import subprocess

from .adapter_frames import written
from .adapter_members import framed, need, same
from .adapter_refusals import NO_HISTORY, OUTERMOST, OUT_OF_RANGE


def steps_and_back(client, examples):
    """The session of README.md."""
    client.launch(examples / "first.ispc")
    same(client.begin()["reason"], "entry")
    same(client.ask("threads")["threads"], [{"id": 1, "name": "gang"}])
    same(client.place(), [(2, 5, "go [1111]")])
    same(client.move("stepIn")["text"], "at 3:5 go depth 1 lanes 1111")
    same(client.move("next")["text"], "at 4:1 go depth 1 lanes 1111")
    same(client.ask("evaluate", expression="x", context="hover")["result"], "1 4 7 10")
    same(client.move("stepBack"), {
        "reason": "step", "description": "at 3:5 go depth 1 lanes 1111", "text": "at 3:5 go depth 1 lanes 1111", "threadId": 1,
        "allThreadsStopped": True,
    })
    same(client.ask("evaluate", expression="x", context="watch")["result"], "0 3 6 9")
    same(client.ask("evaluate", expression="x[2]")["result"], "6")
    same(client.ask("evaluate", expression="print x", context="repl")["result"], "x = 0 3 6 9")
    same(client.ask("evaluate", expression="x", context="repl")["result"], "x = 0 3 6 9")
    same(client.refused("evaluate", expression="y", context="hover"), "S5 UnknownName, column 1: no variable of this name is in scope in this frame or of the file")
    same(client.ask("evaluate", expression="x + 1", context="hover")["result"], "1 4 7 10")
    client.end()


def watches(client, examples):
    """Which statement spoiled a value: the second session of README.md."""
    client.launch(examples / "total.ispc")
    client.begin()
    same(client.move("continue")["text"], "ended")
    same(client.place(), [(9, 1, "go (ended)")])
    same(client.ask("evaluate", expression="total")["result"], "-15")
    found = client.ask("dataBreakpointInfo", name="total", variablesReference=client.file_at_end())
    same(found["dataId"], "total")
    made = client.ask("setDataBreakpoints", breakpoints=[{"dataId": found["dataId"]}])["breakpoints"]
    same(made, [{"id": 1, "verified": True}])
    stop = client.move("reverseContinue")
    same((stop["reason"], stop["hitBreakpointIds"], stop["text"]), ("data breakpoint", [1], "watch 1: at 7:5 go depth 1 lanes 1111"))
    same(client.ask("evaluate", expression="total")["result"], "10")
    same(client.ask("setDataBreakpoints", breakpoints=[])["breakpoints"], [])
    same(client.ask("evaluate", expression="info breakpoints", context="repl")["result"], "none")
    same(client.ask("dataBreakpointInfo", name="x")["dataId"], None)
    same(client.ask("dataBreakpointInfo", name="total[0]")["dataId"], None)
    client.end()


def breaks(client, examples):
    """Breakpoints: those of a list take the place of those before, and another source has none, nor has one without a path."""
    client.launch(examples / "lanes.ispc", stopOnEntry=False)
    same([it["line"] for it in client.breakpoints(1, 5)], [2, 5])
    made = client.breakpoints(5)
    same([(it["verified"], it["line"]) for it in made], [(True, 5)])
    for source in ({"path": "/another.ispc"}, {"name": "lanes.ispc"}, {"path": None}, {}):
        other = client.ask("setBreakpoints", source=source, breakpoints=[{"line": 2}, {"line": 5}])["breakpoints"]
        same([it["verified"] for it in other], [False, False])
    same([it["verified"] for it in client.breakpoints(5, 100)], [True, False])
    listed = client.ask("evaluate", expression="info breakpoints", context="repl")["result"]
    same(len(listed.splitlines()), 1)
    client.ask("setExceptionBreakpoints", filters=[])
    stop = client.begin()
    same((stop["reason"], client.place()[0][0]), ("breakpoint", 5))
    client.end()


def locations(client, examples):
    """The lines on which a breakpoint can stand are those of the steps and closing braces, of the program's source alone."""
    with written(SPREAD) as path:
        client.launch(path)
        client.begin()
        for first, last, lines in [(1, 7, [3, 5, 6]), (1, 3, [3]), (4, 4, []), (5, None, [5]), (5, 4, []), (6, 2**31, [6]), (7, 7, [])]:
            end = {} if last is None else {"endLine": last}
            told = client.ask("breakpointLocations", source={"path": client.source}, line=first, **end)["breakpoints"]
            same([it["line"] for it in told], lines)
        same(client.ask("breakpointLocations", source={"path": "/another.ispc"}, line=1, endLine=7)["breakpoints"], [])
        client.end()


# Steps on lines 3 and 5, and a closing brace on line 6.
SPREAD = "uniform int a = 1;\nexport void go() {\n    int x = a;\n\n    x += 1;\n}\n\n"


def variables(client, examples):
    """Locals, lanes and a variable that is set."""
    client.launch(examples / "first.ispc")
    client.begin()
    client.move("next")
    scopes = client.scopes(1)
    local = client.variables(scopes[0])
    same({name: (it["value"], it["type"]) for name, it in local.items()}, {"x": ("0 3 6 9", "varying int32")})
    lanes = client.variables(local["x"]["variablesReference"])
    same([(name, it["value"]) for name, it in lanes.items()], [("x[0]", "0"), ("x[1]", "3"), ("x[2]", "6"), ("x[3]", "9")])
    same(client.ask("setVariable", variablesReference=local["x"]["variablesReference"], name="x[1]", value="7")["value"], "7")
    same(client.ask("evaluate", expression="x", context="hover")["result"], "0 7 6 9")
    same(client.ask("setVariable", variablesReference=scopes[0], name="x", value="-2")["value"], "-2 -2 -2 -2")
    same(client.refused("setVariable", variablesReference=scopes[0], name="x", value="3000000000"), OUT_OF_RANGE)
    same(client.ask("evaluate", expression="undo", context="repl")["result"], "undone poke: at 3:5 go depth 1 lanes 1111")
    same(client.event("stopped")["reason"], "step")
    same(client.ask("evaluate", expression="x", context="hover")["result"], "0 7 6 9")
    client.end()


def frames(client, examples):
    """Calls: into them, over them and out of them, with the frames of a recursion."""
    client.launch(examples / "recursion.ispc")
    client.begin()
    same(client.move("next")["text"].split(" depth ")[0], "at 8:5 go")
    client.move("stepBack")
    client.ask("evaluate", expression="reverse-continue", context="repl")
    client.event("stopped")
    same(client.place()[0][:2], (7, 5))
    client.move("stepIn")
    same(len(client.place()), 2)
    same([it[2].split()[0] for it in client.place()], ["f", "go"])
    arguments = client.variables(client.scopes(2)[1])
    same({name: (it["value"], it["type"]) for name, it in arguments.items()}, {"k": ("0 1 2 3", "varying int32")})
    same(client.variables(arguments["k"]["variablesReference"])["k[3]"]["value"], "3")
    client.move("stepOut")
    same(len(client.place()), 1)
    client.end()


def faults(client, examples):
    """A fault is an exception, and a step before it can be taken back."""
    client.launch(examples / "divide.ispc", entry="go")
    client.begin()
    same(client.refused("exceptionInfo", threadId=1), "the program stands at no fault")
    stop = client.move("continue")
    same((stop["reason"], stop["text"]), ("exception", "fault F1 DivideByZero lane 1: at 8:5 go depth 1 lanes 1111"))
    told = client.ask("exceptionInfo", threadId=1)
    same((told["exceptionId"], told["breakMode"], told["details"]["typeName"]), ("F1 DivideByZero", "always", "F1 DivideByZero"))
    same(told["description"], "in lane 1\n\n" + page_of(client, "F1", "DivideByZero"))
    same(client.move("stepIn")["reason"], "exception")
    same(client.refused_move("stepOut", OUTERMOST)["reason"], "exception")
    same(client.ask("exceptionInfo", threadId=1), told)
    same(client.move("stepBack")["text"], "at 7:5 go depth 1 lanes 1111")
    same(client.refused("exceptionInfo", threadId=1), "the program stands at no fault")
    client.ask("evaluate", expression="continue", context="repl")
    same(client.event("stopped")["reason"], "exception")
    same(client.ask("exceptionInfo", threadId=1), told)
    client.end()


def page_of(client, number, name):
    """What the program says of a fault at the terminal, behind the fault's number and name."""
    found = subprocess.run([*client.command[:-1], "explain", number], capture_output=True, check=True).stdout.decode()
    head = f"{number} {name}\n\n"
    need(found.startswith(head), f"the page of {number} is {found!r}")
    return found[len(head):]


def filters(client, examples):
    """Faults are announced as one filter, and stop whether it is on or off; which they are, and in which lane, is told of each."""
    announced = client.ask("initialize", adapterID="rinddecade")["exceptionBreakpointFilters"]
    same([(it["filter"], it["default"]) for it in announced], [("faults", True)])
    for number, name, lane, text in FAULTS:
        with written(text) as path:
            client.launch(path)
            client.ask("setExceptionBreakpoints", filters=[it["filter"] for it in announced] if lane % 2 else [])
            client.begin()
            same(client.move("continue")["reason"], "exception")
            told = client.ask("exceptionInfo", threadId=1)
            same(told["exceptionId"], f"{number} {name}")
            same(told["description"], f"in lane {lane}\n\n" + page_of(client, number, name))
        client.again()
    client.ask("initialize", adapterID="rinddecade")
    client.end()


# A program that comes to each of the faults, and the lane.
FAULTS = [
    ("F1", "DivideByZero", 2, "export void go() {\n    int x = 6 / (2 - programIndex);\n}\n"),
    ("F2", "Index", 3, "uniform int a[3];\nexport void go() {\n    int x = a[programIndex];\n}\n"),
    ("F3", "LaneIndex", 3, "export void go() {\n    int x = shuffle(programIndex, programIndex + 1);\n}\n"),
    ("F4", "Assert", 1, "export void go() {\n    assert(programIndex != 1);\n}\n"),
    ("F5", "CallDepth", 0, "void f() {\n    f();\n}\nexport void go() {\n    f();\n}\n"),
]


def the_end(client, examples):
    """The end is a stop, from which the program can go back; a further move ends the session, and a restart begins it anew."""
    client.launch(examples / "first.ispc", width=8)
    client.breakpoints(3)
    client.begin()
    same(client.move("continue")["reason"], "breakpoint")
    same(client.move("continue")["text"], "ended")
    client.ask("next", threadId=1)
    client.event("terminated")
    client.ask("restart")
    same(client.event("stopped")["reason"], "entry")
    same(client.place(), [(2, 5, "go [11111111]")])
    same(client.refused_move("stepBack", NO_HISTORY)["reason"], "entry")
    same(client.move("continue")["reason"], "breakpoint")
    client.ask("terminate")
    client.event("terminated")
    client.ask("restart")
    same(client.event("stopped")["reason"], "entry")
    client.ask("terminate")
    client.event("terminated")
    client.end()


# Requests that lack an argument or have one of a wrong type, each with the first such argument.
INCOMPLETE = [
    ("scopes", {}, "frameId"),
    ("scopes", {"frameId": "1"}, "frameId"),
    ("dataBreakpointInfo", {"variablesReference": 2}, "name"),
    ("dataBreakpointInfo", {"name": "x", "variablesReference": "2"}, "variablesReference"),
    ("dataBreakpointInfo", {"name": "x", "variablesReference": 2, "frameId": "1"}, "frameId"),
    ("variables", {}, "variablesReference"),
    ("variables", {"variablesReference": "1"}, "variablesReference"),
    ("setVariable", {"name": "x", "value": "7"}, "variablesReference"),
    ("setVariable", {"variablesReference": 1}, "name"),
    ("setVariable", {"variablesReference": 1, "name": "x"}, "value"),
    ("setVariable", {"variablesReference": 1, "name": "x", "value": 7}, "value"),
    ("breakpointLocations", {"endLine": 3}, "line"),
    ("gotoTargets", {"source": {}}, "line"),
    ("goto", {"threadId": 1}, "targetId"),
    ("goto", {"targetId": 2**33}, "targetId"),
    ("setExpression", {"value": "7"}, "expression"),
    ("setExpression", {"expression": "x"}, "value"),
    ("setExpression", {"expression": "x", "value": "7", "frameId": "1"}, "frameId"),
    ("completions", {"column": 1}, "text"),
    ("completions", {"text": "x"}, "column"),
    ("completions", {"text": "x", "column": 1, "frameId": [1]}, "frameId"),
    ("evaluate", {}, "expression"),
    ("evaluate", {"expression": ["x"]}, "expression"),
    ("evaluate", {"expression": "x", "frameId": "2"}, "frameId"),
]


def wrong_requests(client, examples):
    """Wrong and unknown requests are answered, and a message of any bytes is refused by name."""
    same(client.refused("next", threadId=1), "no program is launched")
    same(client.refused("launch"), "the argument `program` is missing or of a wrong type")
    need(client.refused("launch", program="/nowhere/at.all") != "", "no reason")
    same(client.refused("launch", program=str(examples / "first.ispc"), width=5), "width 5: it is 4, 8 or 16")
    client.launch(examples / "first.ispc")
    client.begin()
    same(client.refused("stepInTargets", frameId=1), "no request stepInTargets")
    for command, arguments, argument in INCOMPLETE:
        same(client.refused(command, **arguments), f"the argument `{argument}` is missing or of a wrong type")
    for raw, name in [
        (b"Content-Length: 3\r\n\r\n\xff{]", "NoJson"),
        (b"Content-Length: 2\r\n\r\n{}", "NoRequest"),
        *[(framed({"seq": 1, "command": "next", **it}), "NoRequest") for it in ({"type": "response"}, {"type": "Request"}, {"type": None}, {})],
        (b"Content-Length: x\r\n\r\n", "BadLength"),
        (b"Length\r\n\r\n", "BadHeader"),
        (b"Content-Type: json\r\n\r\n", "NoLength"),
        (b"Content-Length: 1\r\nContent-Length: 1\r\n\r\n", "TwoLengths"),
        (b"Content-Length: 99999999999999999999999\r\n\r\n", "TooLong"),
        (b"x" * 5000, "HeadTooLong"),
    ]:
        client.write(raw)
        need(f": {name}" in client.event("output")["output"], f"not {name}")
    same(client.place(), [(2, 5, "go [1111]")])
    client.end()


EXAMPLE_CHECKS = [steps_and_back, watches, breaks, locations, variables, frames, faults, filters, the_end, wrong_requests]
