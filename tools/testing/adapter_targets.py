"""Checks of the debug adapter: what a name, a lane or an element shows in each frame, what of it opens, and help and parameters in the console."""

from . import adapter_values
from .adapter_frames import NO_REFERENCE, RECURSION, at_depth_3, row, written
from .adapter_members import WAITS, need, same
from .adapter_refusals import OUT_OF_RANGE
from .adapter_values import HALF, at_half, children, elements, in_arrays, shown, TABLE

WIDTHS = (4, 8, 16)
CONTEXTS = ("watch", "hover", "repl", "variables", None)
UNKNOWN = "no variable of this name is in scope in this frame or of the file"
NO_INDEX = "S8 Type"


def at_widths(check):
    """A check at widths 4, 8 and 16."""
    return adapter_values.at_widths(check, WIDTHS)


def asked(text, depth, context):
    """The arguments of a request to evaluate."""
    return {"expression": text, "frameId": depth, **({} if context is None else {"context": context})}


# ---- lanes and elements


def targets_in_each_frame(client, width):
    """A lane or an element is shown in each frame as its name is, whatever the request stands for."""
    lanes = range(width)
    last = width - 1
    with written(RECURSION) as source:
        at_depth_3(client, source, width)
        own = {depth: [lane % 2 + depth - 2 for lane in lanes] for depth in (2, 3)}
        wanted = [(f"x[{lane}]", 1, lane * 3) for lane in lanes]
        wanted += [(f"k[{lane}]", depth, own[depth][lane]) for depth in (2, 3) for lane in (0, 1, last)]
        wanted += [(f"r[{lane}]", 2, own[2][lane] + 10) for lane in (0, last)]
        wanted += [(f"wide[{lane}]", depth, -3) for depth in (1, 2, 3) for lane in (0, last)]
        wanted += [("even[0]", 1, "true"), ("even[1]", 1, "false"), ("table[2]", 1, "true"), ("table[4]", 2, "false"), ("table[2]", 3, "true")]
        wanted += [(" x [ 2 ] ", 1, 6), ("deep", 2, -5), ("x", 1, row(lane * 3 for lane in lanes))]
        for context in CONTEXTS:
            for text, depth, value in wanted:
                name = text if context == "repl" and depth == 3 else None
                told = client.ask("evaluate", **asked(text, depth, context))["result"]
                same(told, f"{name} = {value}" if name else str(value))
            for text, depth in [(f"x[{width}]", 1), (f"k[{width}]", 2), (f"k[{width}]", 3), ("table[5]", 1), ("table[5]", 3), ("wide[99]", 2)]:
                same(client.refused("evaluate", **asked(text, depth, context)), OUT_OF_RANGE)
            for text, depth in [("y[0]", 1), ("deep[0]", 2), ("total[0]", 1), ("x[2] + 1", 1), ("k[1 - 1]", 2)]:
                need(client.refused("evaluate", **asked(text, depth, context)).startswith(NO_INDEX), f"{text} has a value at depth {depth}")
            for text in ("x", "x[2]"):
                same(client.refused("evaluate", **asked(text, 2, context)), f"S5 UnknownName, column 1: {UNKNOWN}")
            same(client.ask("evaluate", **asked("table[1 + 1]", 1, context))["result"], "true")
        client.end()


def of_waiting_lanes(client, width):
    """A lane that waits is shown by its own name in the outer frame, and has no value in an expression."""
    with written(HALF) as source:
        at_half(client, source, width)
        for lane in range(width):
            same(client.value(f"x[{lane}]", 1), str(lane * 3 + (lane % 2 == 0)))
            same(client.value(f"k[{lane}]", 2) if lane % 2 == 0 else str(lane * 3 + 1), str(lane * 3 + 1))
            same(client.value(f"far[{lane}]", 1), "-3")
        same(client.value("x + 0", 1), row(lane * 3 + 1 if lane % 2 == 0 else "." for lane in range(width)))
        client.end()


# ---- what opens


def opens(client, width):
    """A varying scalar or an array opens under the mouse, in the watch list and in the console as it does among the variables, and a value that varies into lanes of its own; nothing else opens."""
    lanes = range(width)
    with written(RECURSION) as source:
        at_depth_3(client, source, width)
        listed = {}
        for depth in (1, 2, 3):
            local, arguments, file = client.scopes(depth)
            for scope in (local, arguments, file):
                listed[depth] = {**client.variables(scope), **listed.get(depth, {})}
        for context in CONTEXTS:
            told = lambda text, depth: client.ask("evaluate", **asked(text, depth, context))["variablesReference"]
            for text, depth in [("x", 1), ("even", 1), ("k", 2), ("r", 2), ("k", 3), ("wide", 1), ("wide", 2), ("wide", 3), ("table", 1), ("table", 3)]:
                same(told(text, depth), listed[depth][text]["variablesReference"])
                need(told(text, depth) > 0, f"{text} does not open at depth {depth}")
            for text, depth in [("y", 1), ("deep", 2), ("deep", 3), ("total", 3), ("x[2]", 1), ("k[1]", 3), ("table[2]", 2), ("deep + 1", 3), ("7", 2)]:
                same(told(text, depth), 0)
            for text, depth in [("x + 1", 1), ("k * 1", 3)]:
                need(told(text, depth) not in (0, *(it["variablesReference"] for it in listed[depth].values())), f"{text} opens into a variable at depth {depth}")
        top = client.ask("evaluate", expression="k", context="watch")["variablesReference"]
        same(client.values(top), {f"k[{lane}]": str(lane % 2 + 1) for lane in lanes})
        outer = client.ask("evaluate", **asked("x", 1, "hover"))["variablesReference"]
        same(client.values(outer), {f"x[{lane}]": str(lane * 3) for lane in lanes})
        same(client.ask("evaluate", expression="info locals", context="repl")["variablesReference"], 0)
        same(client.ask("evaluate", expression="print k", context="repl")["variablesReference"], top)
        same(client.ask("setVariable", variablesReference=top, name="k[1]", value="-7")["value"], "-7")
        same(client.value("k[1]", 3), "-7")
        client.breakpoints()
        client.move("stepOut")
        client.move("stepOut")
        same(client.refused("variables", variablesReference=top), NO_REFERENCE)
        same(len(client.variables(outer)), width)
        client.end()


def waiting_and_many(client, width):
    """Of what opens a lane that waits is marked, and a long array has its ranges."""
    with written(HALF) as source:
        at_half(client, source, width)
        outer = client.ask("evaluate", **asked("x", 1, "watch"))["variablesReference"]
        same(list(client.values(outer)), [f"x[{lane}]{WAITS if lane % 2 else ''}" for lane in range(width)])
        client.end()
    client.start()
    with in_arrays(client, width):
        table = client.ask("evaluate", **asked("table", 1, "watch"))["variablesReference"]
        pieces = children(client, table)
        same([it["name"] for it in pieces], ["table[0..999]", "table[1000..1999]", "table[2000..2499]"])
        same(shown(children(client, pieces[2]["variablesReference"])), elements("table", TABLE, 2000, 2500))
        same(client.ask("evaluate", **asked("part", 2, "watch"))["variablesReference"], client.variables(client.scopes(2)[1])["part"]["variablesReference"])
        same(client.value("table[2499]", 1), str(TABLE[2499]))
        same(client.refused("evaluate", **asked("table[2500]", 1, "watch")), OUT_OF_RANGE)
        client.end()


# ---- help in the console

HELPED = "export void go() {\n    uniform int help = 7;\n    help += 1;\n}\n"


def help_in_console(client, examples):
    """`help` in the console tells what can be typed there, in each frame and behind the end; elsewhere, and where a variable has this name, it is an expression."""
    width = 4
    with written(RECURSION) as source:
        at_depth_3(client, source, width)
        told = lambda text, **frame: client.ask("evaluate", expression=text, context="repl", **frame)
        whole = told("help")
        same(whole["variablesReference"], 0)
        for text in ("help", "help next", "help print x"):
            for frame in ({}, {"frameId": 3}, {"frameId": 1}):
                same(told(text, **frame), whole)
        commands = [it["label"] for it in client.ask("completions", text="", column=1)["targets"]]
        need(commands[0] == "step" and "quit" in commands, f"the commands are {commands}")
        for command in commands[: commands.index("quit")]:
            need(command in whole["result"], f"help has no {command}")
        for context in ("watch", "hover"):
            same(client.refused("evaluate", expression="help", context=context), f"S5 UnknownName, column 1: {UNKNOWN}")
        need(client.refused("evaluate", expression="helpless", context="repl").startswith("S5"), "`helpless` is helped")
        client.breakpoints()
        same(client.move("continue")["text"], "ended")
        same(told("help"), whole)
        client.end()
    client.start()
    with written(HELPED) as source:
        client.launch(source, width=width)
        client.begin()
        client.move("next")
        same(client.ask("evaluate", expression="help", context="repl")["result"], "help = 7")
        same(client.ask("evaluate", expression="help", context="watch")["result"], "7")
        same(client.ask("evaluate", expression="help next", context="repl")["result"], whole["result"])
        client.end()


def parameters_in_console(client, width):
    """`info args` in the console lists the parameters of each frame, one a line."""
    lanes = range(width)
    with written(RECURSION) as source:
        at_depth_3(client, source, width)
        told = lambda **frame: client.ask("evaluate", expression="info args", context="repl", **frame)
        for depth in (2, 3):
            same(told(frameId=depth), {"result": "k = " + row(lane % 2 + depth - 2 for lane in lanes), "variablesReference": 0})
        same(told(), told(frameId=3))
        same(told(frameId=1), {"result": "no parameters", "variablesReference": 0})
        need(client.refused("evaluate", expression="info args", context="watch").startswith("S3"), "`info args` is answered in the watch list")
        client.breakpoints()
        same(client.move("continue")["text"], "ended")
        same(told()["result"], "no parameters")
        client.end()
    client.start()
    with in_arrays(client, width):
        same(client.ask("evaluate", expression="info args", context="repl")["result"], "part = 1001 elements\nn = 1001")
        client.end()


TARGET_CHECKS = [*(check for it in (targets_in_each_frame, of_waiting_lanes, opens, waiting_and_many, parameters_in_console) for check in at_widths(it)), help_in_console]
