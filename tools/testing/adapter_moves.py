"""Checks of the debug adapter: going to a time of a line, what an expression names is set, constants, and names that are completed."""

from .adapter_frames import NO_FRAME, NOT_SET, RECURSION, at_depth_3, written
from .adapter_launches import LINES
from .adapter_members import same
from .adapter_refusals import BAD_VALUE, CONSTANT, ENDED, TABLE_FULL

# Which time of a line a target is, by the last digit of its number in the base 2.
NEXT, LAST = 0, 1

def targets(client, line, path=None):
    """The targets for a line, each by its number, its label and its line."""
    told = client.ask("gotoTargets", source={"path": path or client.source}, line=line)["targets"]
    return [(it["id"], it["label"], it["line"]) for it in told]


def times(line):
    return [(2 * line + NEXT, f"line {line}, the next time", line), (2 * line + LAST, f"line {line}, the last time before", line)]


def go(client, line, time):
    """The stop to which a goto leads, and the line of the top frame, if there is one."""
    client.ask("goto", threadId=1, targetId=2 * line + time)
    stop = client.event("stopped")
    return stop["reason"], ([it[0] for it in client.place()] or [None])[0]


def goto_targets(client, examples):
    """The targets for a line are the times of the first line from there on that has a step; another source has none."""
    client.launch(examples / "lanes.ispc")
    client.begin()
    same(targets(client, 4), times(4))
    same(targets(client, 1), times(2))
    same(targets(client, 100), [])
    same(targets(client, 4, "/another.ispc"), [])
    client.end()


def goes(client, examples):
    """A goto leads to the next time of a line and to the last one before, or to the end, on the closing brace, and leaves no breakpoint."""
    client.launch(examples / "lanes.ispc")
    client.begin()
    same(go(client, 4, NEXT), ("goto", 4))
    same(client.value("x"), "0 0 0 0")
    same(go(client, 4, NEXT), ("goto", 4))
    same(client.value("x[0]"), "1")
    same(go(client, 4, LAST), ("goto", 4))
    same(client.value("x"), "0 0 0 0")
    same(go(client, 4, LAST), ("step", 2))
    same(go(client, 6, NEXT), ("goto", 6))
    same(go(client, 2, NEXT), ("goto", 9))
    same(client.ask("evaluate", expression="info breakpoints", context="repl")["result"], "none")
    same(client.refused("goto", threadId=1, targetId=8), ENDED)
    same(client.event("stopped")["text"], ENDED)
    same(go(client, 7, LAST), ("goto", 7))
    client.end()


def goes_by_breakpoints(client, examples):
    """A breakpoint on the way stops a goto, which goes on then, and it stays as it was; without room for one more a goto is refused."""
    client.launch(examples / "lanes.ispc")
    made = client.breakpoints(4)[0]["id"]
    client.begin()
    client.ask("goto", threadId=1, targetId=14)
    stop = client.event("stopped")
    same((stop["reason"], stop["hitBreakpointIds"], client.place()[0][0]), ("breakpoint", [made], 4))
    same(go(client, 7, NEXT), ("goto", 7))
    same([it["id"] for it in client.breakpoints(4)], [made + 3])
    client.again()
    with written(LINES) as path:
        client.launch(path)
        client.breakpoints(*range(3, 67))
        client.begin()
        same(client.refused("goto", threadId=1, targetId=2 * 70), TABLE_FULL)
        same(client.event("stopped")["text"], TABLE_FULL)
        same(client.place()[0][0], 2)
        client.end()


def sets_expressions(client, examples):
    """What an expression names in a frame is set; where no frame is there, nothing is."""
    client.launch(examples / "first.ispc")
    client.begin()
    client.move("next")
    same(client.ask("setExpression", expression="x[1]", value="7", frameId=1)["value"], "7")
    same(client.value("x"), "0 7 6 9")
    same(client.ask("setExpression", expression="x[1]", value="5 (waits)")["value"], "5")
    same(client.ask("setExpression", expression="x", value="-2")["value"], "-2 -2 -2 -2")
    same(client.refused("setExpression", expression="x + 1", value="7"), BAD_VALUE)
    for value in ("x", "x + 1", "q", "", "1 2"):
        same(client.refused("setExpression", expression="x", value=value), BAD_VALUE)
    same(client.refused("setExpression", expression="x", value="7", frameId=2), NOT_SET)
    same(client.value("x"), "-2 -2 -2 -2")
    client.end()


# A constant of the file, one of a function, and a variable.
CONSTANTS = "const uniform int most = 5;\nexport void go() {\n    const int x = most;\n    int y = x;\n}\n"


def constants(client, examples):
    """A constant and each of its lanes is told as one that is only read, and is not set."""
    hints = lambda variables: {name: it["presentationHint"]["attributes"] for name, it in variables.items()}
    with written(CONSTANTS) as path:
        client.launch(path)
        client.begin()
        client.move("next")
        client.move("next")
        locals, _, file = client.scopes(1)
        local = client.variables(locals)
        same(hints(local), {"x": ["constant", "readOnly"], "y": []})
        same(hints(client.variables(file)), {"most": ["constant", "readOnly"]})
        same(list(hints(client.variables(local["x"]["variablesReference"])).values()), [["constant", "readOnly"]] * 4)
        same(client.refused("setVariable", variablesReference=locals, name="x", value="7"), CONSTANT)
        same(client.refused("setExpression", expression="most", value="7"), CONSTANT)
        client.end()


# The commands that are completed, without their short forms.
COMMANDS = [
    "step", "next", "finish", "continue", "reverse-step", "reverse-next", "reverse-continue", "reverse-finish", "undo", "print", "set var",
    "set record full insn-number-max", "break", "watch", "delete", "info breakpoints", "info locals", "backtrace", "quit",
]


def completed(client, text, column, **frame):
    """The texts that a completion makes of one, each by its name."""
    told = client.ask("completions", text=text, column=column, **frame)["targets"]
    return [(it["label"], replaced(text, it["start"] - 1, it["length"], it["label"])) for it in told]


def replaced(text, start, length, name):
    """A text in which a name stands in the place of so many units of UTF-16, each of two bytes."""
    units = text.encode("utf-16-le")
    return (units[: start * 2] + name.encode("utf-16-le") + units[(start + length) * 2 :]).decode("utf-16-le")


def completions(client, examples):
    """Names of a frame and of the file are completed in place of the name before the column, commands in place of all before it."""
    with written(RECURSION) as path:
        at_depth_3(client, path, 8)
        same([name for name, _ in completed(client, "", 1)], COMMANDS + ["deep", "r", "k", "wide", "total", "table"])
        same([name for name, _ in completed(client, "", 1, frameId=1)], COMMANDS + ["x", "y", "even", "wide", "total", "table"])
        same(completed(client, "print to", 9), [("total", "print total")])
        same(completed(client, "k + t - 1", 6), [("total", "k + total - 1"), ("table", "k + table - 1")])
        same(completed(client, "reverse-s", 10), [("reverse-step", "reverse-step")])
        same(completed(client, "info l", 7), [("info locals", "info locals")])
        same(completed(client, "d", 2), [("delete", "delete"), ("deep", "deep")])
        same(completed(client, "k", 100), [("k", "k")])
        same(completed(client, "2 * y", 6, frameId=2), [])
        same(completed(client, "2 * y", 6, frameId=1), [("y", "2 * y")])
        same(client.refused("completions", text="x", column=2, frameId=4), NO_FRAME)
        client.end()


# Texts before a name, by how many units of UTF-16 they have: letters of two bytes and of three count one, those of four bytes two.
BEFORE = [("\u00e9 + ", 4), ("\u20ac\u20ac", 2), ("\U0001d11e ", 3), ("\u00e9\U0001d11e\u20ac(", 5)]


def columns(client, examples):
    """Columns count units of UTF-16, before the name that is completed and up to the cursor."""
    with written(RECURSION) as path:
        at_depth_3(client, path, 16)
        for text, units in BEFORE:
            same(completed(client, text + "to", units + 3), [("total", text + "total")])
            same(completed(client, text + "to - " + text, units + 2), [("total", text + "totalo - " + text), ("table", text + "tableo - " + text)])
            told = client.ask("completions", text=text + "tab" + text, column=units + 4)["targets"]
            same(told, [{"label": "table", "start": units + 1, "length": 3}])
        same(completed(client, "to\u20ac", 3), [("total", "total\u20ac")])
        same(completed(client, "k\U0001d11e", 3), completed(client, "k\U0001d11e", 2))
        client.end()


MOVE_CHECKS = [goto_targets, goes, goes_by_breakpoints, sets_expressions, constants, completions, columns]
