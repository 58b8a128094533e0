"""Checks of the debug adapter: what a launch says, where a run begins, and breakpoints that are not set."""

from .adapter_frames import written
from .adapter_members import need, same
from .adapter_refusals import NO_HISTORY

# Two entries, and more lines than there can be breakpoints.
ENTRIES = "export void go() {\n    int x = 1;\n}\nexport void other() {\n    int y = programIndex - 1;\n    y += 1;\n}\n"
LINES = "export void go() {\n    int x = 0;\n" + "    x += 1;\n" * 70 + "}\n"

# An argument of a launch by a wrong type.
WRONG_TYPES = [
    ("program", 3), ("input", 3), ("entry", ["go"]), ("width", "8"), ("width", 8.5), ("width", -4), ("history", "10"), ("steps", {}),
    ("stopOnEntry", "false"), ("stopOnEntry", 0), ("laneThreads", "true"), ("laneThreads", 1),
]


def arguments(client, examples):
    """Each argument of a launch has its meaning, and one of a wrong type is refused by its name."""
    source = str(examples / "first.ispc")
    for name, value in WRONG_TYPES:
        same(client.refused("launch", **{"program": source, name: value}), f"the argument `{name}` is missing or of a wrong type")
    need(client.refused("launch", program=source, entry="none") != "", "no reason")
    with written(ENTRIES) as path:
        client.launch(path, width=16, entry="other", input=None, history=2)
        client.begin()
        same(client.place(), [(5, 5, "other [1111111111111111]")])
        client.move("next")
        client.move("next")
        same(client.value("y"), " ".join(str(lane) for lane in range(16)))
        client.end()


def history(client, examples):
    """As many steps are taken back as the history says, and no more."""
    client.launch(examples / "lanes.ispc", history=2)
    client.begin()
    places = [client.place()]
    for _ in range(3):
        client.move("stepIn")
        places.append(client.place())
    client.move("stepBack")
    client.move("stepBack")
    same(client.place(), places[1])
    same(client.refused_move("stepBack", NO_HISTORY)["reason"], "step")
    client.end()


def default_history(client, examples):
    """A launch without a history keeps as many steps as there can be."""
    with written(LINES) as path:
        client.ask("initialize", adapterID="rinddecade")
        client.ask("launch", program=str(path))
        client.event("initialized")
        client.begin()
        same(client.move("continue")["text"], "ended")
        same(client.move("reverseContinue")["text"], "history end: at 2:5 go depth 1 lanes 1111")
        client.end()


def ranges(client, examples):
    """The numbers of a launch are taken up to the ends of their ranges, and no further. A history of one step and moves of one step do so much."""
    ranges = {"width": "4, 8 or 16", "history": "1 to 65536", "steps": "1 to 10000000"}
    with written(LINES) as path:
        for name, value in [("width", 0), ("width", 7), ("width", 32), ("history", 0), ("history", 65537), ("steps", 0), ("steps", 10000001)]:
            same(client.refused("launch", **{"program": str(path), name: value}), f"{name} {value}: it is {ranges[name]}")
        same(client.refused("launch", program=str(path), width=5, history=0), "width 5: it is 4, 8 or 16")
        same(client.refused("launch", program=str(path), width=8, history=10, steps=0), "steps 0: it is 1 to 10000000")
        client.launch(path, width=8, history=65536, steps=10000000)
        client.begin()
        same(client.move("continue")["text"], "ended")
        client.again()
        client.launch(path, width=4, history=1, steps=1)
        client.begin()
        places = [client.place(), *((client.move("continue"), client.place())[1] for _ in range(2))]
        same([it[0][:2] for it in places], [(2, 5), (3, 5), (4, 5)])
        same((client.move("stepBack"), client.place())[1], places[1])
        same(client.refused_move("stepBack", NO_HISTORY)["reason"], "step")
        client.end()


def step_limit(client, examples):
    """A forward command does as many moves as the launch says."""
    with written(LINES) as path:
        client.launch(path, steps=10)
        client.begin()
        stop = client.move("continue")
        same((stop["reason"], client.value("x")), ("pause", "9 9 9 9"))
        client.end()


def given_input(client, examples):
    """The input gives the entry's parameters and the variables of the file: those that examples/scale.input has."""
    client.launch(examples / "scale.ispc", input=str(examples / "scale.input"))
    client.begin()
    given = client.variables(client.scopes(1)[1])
    same((given["count"]["value"], given["factor"]["value"], given["a"]["value"]), ("6", "3", "6 elements"))
    same(list(client.values(given["a"]["variablesReference"]).values()), ["10", "-20", "30", "40", "50", "-60"])
    same(client.values(client.scopes(1)[2]), {"most": "90"})
    client.end()


def first_statement(client, examples):
    """A breakpoint on the first statement stops a run that does not stop on entry, before any step."""
    client.launch(examples / "first.ispc", stopOnEntry=False)
    made = client.breakpoints(3, 2)
    stop = client.begin()
    same((stop["reason"], stop["hitBreakpointIds"]), ("breakpoint", [made[1]["id"]]))
    same(stop["text"], f"breakpoint {made[1]['id']}: at 2:5 go depth 1 lanes 1111")
    same(client.refused_move("stepBack", NO_HISTORY)["hitBreakpointIds"], [made[1]["id"]])
    same(client.move("continue")["hitBreakpointIds"], [made[0]["id"]])
    client.end()


def no_breakpoints(client, examples):
    """Each entry that cannot be set is refused for itself, with its reason."""
    client.launch(examples / "first.ispc")
    client.begin()
    asked = [
        {"line": 2, "condition": 1}, {"line": 3}, {"line": 3, "hitCondition": "==2"}, {"line": 3, "logMessage": 7}, {"line": "3"},
        {}, {"line": -1}, {"line": 2**32}, {"line": 0}, {"line": 50}, {"line": 4, "condition": None}, {"line": 2, "condition": "x" * 257},
        {"line": 2, "hitCondition": "0"}, {"line": 2, "hitCondition": "10000001"}, {"line": 2, "hitCondition": 2}, {"line": 2, "logMessage": "x" * 257},
    ]
    found = client.ask("setBreakpoints", source={"path": client.source}, breakpoints=asked)["breakpoints"]
    unplaced = "its line is no number from 1 to 4294967295, or its name or target is no text"
    condition, count = "its condition is no text of at most 256 bytes", "its count is none of `N`, `>= N` and `> N`, with a first stop from 1 to 10000000"
    message = "its log message is no text of at most 256 bytes"
    same([it.get("message") for it in found], [
        condition, None, count, message, unplaced, unplaced, unplaced, unplaced, unplaced,
        "no step stands on this line or behind it", None, condition, count, count, count, message,
    ])
    same([it["line"] for it in found if it["verified"]], [3, 4])
    same(len(client.ask("evaluate", expression="info breakpoints", context="repl")["result"].splitlines()), 2)
    other = client.ask("setBreakpoints", source={"path": "/another.ispc"}, breakpoints=[{"line": 3}])["breakpoints"]
    same([it.get("message") for it in other], ["this source is not the program's"])
    same(len(client.ask("evaluate", expression="info breakpoints", context="repl")["result"].splitlines()), 2)
    watched = client.ask("setDataBreakpoints", breakpoints=[
        {"dataId": "x"}, {"dataId": 3}, {"dataId": "x", "condition": "1"}, {"dataId": "x", "hitCondition": "2"}, {"dataId": "x", "logMessage": "x"},
    ])["breakpoints"]
    unwatched = "only scalars of the file, their lanes and elements of arrays are watched"
    same([it["message"] for it in watched], [unwatched, unplaced, unwatched, unwatched, "only a breakpoint of a line has a log message"])
    client.end()


def full(client, examples):
    """The 65th breakpoint is refused for want of room."""
    with written(LINES) as path:
        client.launch(path)
        client.begin()
        made = client.breakpoints(*range(2, 68))
        same([it["verified"] for it in made], [True] * 64 + [False] * 2)
        same(made[64]["message"], "no more breakpoints and watches can be there")
        client.end()


def changed_texts(client, examples):
    """A restart runs the text that the source has then; a text that is refused is told with its path, line and column."""
    wrong = "export void go() {\n    int x = y;\n}\n"
    with written(wrong) as path:
        unknown = f"{path}:2:13: S5 UnknownName: No variable or function with this name is in scope here."
        same(client.refused("launch", program=str(path)), unknown)
        path.write_text(ENTRIES)
        client.launch(path)
        client.begin()
        same(client.place(), [(2, 5, "go [1111]")])
        path.write_text("\n" + ENTRIES)
        client.ask("restart")
        client.event("stopped")
        same(client.place(), [(3, 5, "go [1111]")])
        client.move("next")
        path.write_text(wrong)
        same(client.refused("restart"), unknown)
        same(client.place(), [(4, 1, "go [1111]")])
        path.unlink()
        same(client.refused("restart"), f"cannot read {path}: there is no such file")
        same(client.move("stepBack")["text"], "at 3:5 go depth 1 lanes 1111")
        client.end()


def unread_files(client, examples):
    """The file of a launch that cannot be read is told by its path, with the reason."""
    source = str(examples / "scale.ispc")
    same(client.refused("launch", program="/nowhere/at.all"), "cannot read /nowhere/at.all: there is no such file")
    same(client.refused("launch", program=str(examples)), f"cannot read {examples}: it is a directory")
    same(client.refused("launch", program=source, input="/nowhere/at.all"), "cannot read /nowhere/at.all: there is no such file")
    same(client.refused("launch", program=f"{source}/more"), f"cannot read {source}/more: a part of its path is no directory")
    client.launch(source, input=str(examples / "scale.input"))
    client.begin()
    client.end()


def unknown_entries(client, examples):
    """An entry that is not there is told with the functions that a run may begin with."""
    with written(ENTRIES) as path:
        same(client.refused("launch", program=str(path), entry="third"), "E1 NoEntry: no exported function is called third; exported functions: go, other")
    with written("void go() {\n}\n") as path:
        none = "E1 NoEntry: exported functions: none; write `export` before the function that the run begins with"
        same(client.refused("launch", program=str(path)), none)
    client.ask("initialize", adapterID="rinddecade")
    client.end()


def refused_inputs(client, examples):
    """An input that is refused is told by its path and line, with what the refusal means."""
    form = "The line is not of the form `name = values`, a scalar has not just one value, the name is not one that an input can give, or it has had a line."
    missing = "A parameter of the entry has no line in the input, or no `--input` was given."
    with written("export void go(uniform int8 n) {\n}\n") as path, written("n = 1\nm = 2\n") as rows:
        refused = lambda **more: client.refused("launch", program=str(path), **more)
        same(refused(input=str(rows)), f"{rows}:2:1: I1 BadLine: {form}")
        rows.write_text("# nothing\n")
        same(refused(input=str(rows)), f"{rows}: I2 Missing n: {missing}")
        same(refused(), f"input: I2 Missing n: {missing}")
        rows.write_text("\nn = 128\n")
        same(refused(input=str(rows)), f"{rows}:2:1: I3 Range: A value of this line is outside the type of its variable.")
        rows.write_text("n = -128\n")
        client.launch(path, input=str(rows))
        client.begin()
        same(client.value("n"), "-128")
        client.end()


def ends_before_a_launch(client, examples):
    """A disconnect ends the adapter before a launch too, and each message before it is answered."""
    client.ask("initialize", adapterID="rinddecade")
    same(client.refused("scopes", frameId=1), "no program is launched")
    client.ask("initialize", adapterID="rinddecade")
    client.end()


LAUNCH_CHECKS = [
    arguments, ranges, history, default_history, step_limit, given_input, first_statement, no_breakpoints, full, changed_texts,
    unread_files, unknown_entries, refused_inputs, ends_before_a_launch,
]
