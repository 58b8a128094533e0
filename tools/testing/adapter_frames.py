"""Checks of the debug adapter: each frame's variables, and what the references of variables stand for."""

import contextlib
import pathlib
import tempfile

from .adapter_members import same
from .adapter_refusals import BAD_VALUE, CONSTANT, NO_SUCH_NAME, OUT_OF_RANGE

# A function that calls itself, from depth 2 down to depth 4: at depth 2 `k` is 0 in even lanes and 1 in odd ones, at each depth below it
# is one more. Line 8 is the test at which the breakpoint stands.
RECURSION = """varying int16 wide = -3;
uniform int total = 7;
uniform bool table[5];
bool is_even(int k) { return k % 2 == 0; }
int f(int k) {
    uniform int8 deep = -5;
    int r = k + 10;
    if (k > 1) return r;
    return f(k + 1);
}
export void go() {
    int x = programIndex * 3;
    uniform int64 y = 5;
    bool even = is_even(programIndex);
    table[2] = true;
    x = f(programIndex % 2);
}
"""
NO_NAME = "S5 UnknownName, column 1: no variable of this name is in scope in this frame or of the file"
NO_FRAME = "no frame has this number now"
NOT_SET = "only a variable of a frame or of the file can be set"
NO_REFERENCE = "nothing has this reference now"


@contextlib.contextmanager
def written(text):
    """The path of a source with this text."""
    with tempfile.TemporaryDirectory() as folder:
        path = pathlib.Path(folder).resolve() / "source.ispc"
        path.write_text(text)
        yield path


def row(values):
    return " ".join(str(it) for it in values)


def at_depth_3(client, source, width):
    client.launch(source, width=width, stopOnEntry=False)
    same([it["verified"] for it in client.breakpoints(8)], [True])
    same(client.begin()["reason"], "breakpoint")
    same(client.move("continue")["reason"], "breakpoint")
    frames = client.ask("stackTrace", threadId=1)["stackFrames"]
    bits = "1" * width
    same([(it["id"], it["name"], it["line"]) for it in frames], [(3, f"f [{bits}]", 8), (2, f"f [{bits}]", 9), (1, f"go [{bits}]", 16)])


def own_variables(width):
    """Each of three frames shows its own variables, their parts and its own values."""

    def own_variables_of_frames(client, examples):
        lanes = range(width)
        with written(RECURSION) as source:
            at_depth_3(client, source, width)
            for depth in (2, 3):
                own = [lane % 2 + depth - 2 for lane in lanes]
                local, arguments, _ = client.scopes(depth)
                same(client.values(local), {"deep": "-5", "r": row(it + 10 for it in own)})
                same(client.values(arguments), {"k": row(own)})
                same(client.value("k", depth), row(own))
                parts = client.values(client.variables(arguments)["k"]["variablesReference"])
                same(parts, {f"k[{lane}]": str(own[lane]) for lane in lanes})
                second = client.values(client.variables(local)["r"]["variablesReference"])
                same(second, {f"r[{lane}]": str(own[lane] + 10) for lane in lanes})
            local, arguments, _ = client.scopes(1)
            truths = row("true" if lane % 2 == 0 else "false" for lane in lanes)
            same(client.values(local), {"x": row(lane * 3 for lane in lanes), "y": "5", "even": truths})
            same(client.variables(local)["y"]["type"], "uniform int64")
            same(client.values(arguments), {})
            same(client.value("even", 1), truths)
            client.end()

    own_variables_of_frames.__name__ = f"own_variables_at_width_{width}"
    return own_variables_of_frames


def outer_frames(client, examples):
    """In an outer frame names are looked up; a frame that is not there is refused, as is its reference, and nothing is set there."""
    with written(RECURSION) as source:
        at_depth_3(client, source, 4)
        same(client.value("x", 1), "0 3 6 9")
        same(client.refused("evaluate", expression="x", frameId=3), NO_NAME)
        same(client.refused("evaluate", expression="k", frameId=1), NO_NAME)
        same(client.value("k + 1", 2), "1 2 1 2")
        same(client.value("total", 2), "7")
        same(client.ask("evaluate", expression="print k", context="repl", frameId=2)["result"], "0 1 0 1")
        same(client.ask("evaluate", expression="k", context="repl", frameId=2)["result"], "0 1 0 1")
        for number in (0, 4, 2**31):
            same(client.refused("scopes", frameId=number), NO_FRAME)
            same(client.refused("evaluate", expression="x", frameId=number), NO_FRAME)
            same(client.refused("setExpression", expression="k", value="9", frameId=number), NOT_SET)
            same(client.refused("evaluate", expression="set var k = 9", context="repl", frameId=number), NO_FRAME)
        outer = client.scopes(2)[1]
        top = client.scopes(3)[1]
        same(client.ask("setVariable", variablesReference=top, name="k", value="1")["value"], "1 1 1 1")
        same((client.value("k", 3), client.value("k", 2)), ("1 1 1 1", "0 1 0 1"))
        file = client.scopes(2)[2]
        same(client.ask("setVariable", variablesReference=file, name="total", value="-8")["value"], "-8")
        client.breakpoints()
        client.move("stepOut")
        same(len(client.place()), 2)
        same(client.refused("variables", variablesReference=top), NO_REFERENCE)
        same(client.refused("setVariable", variablesReference=top, name="k", value="9"), NOT_SET)
        same(client.refused("scopes", frameId=3), NO_FRAME)
        same(client.values(outer), {"k": "0 1 0 1"})
        client.end()


def values_in_frames(client, frames):
    """The parameter `k` and the local variable `deep` of the frames at some depths."""
    return {depth: (client.value("k", depth), client.value("deep", depth)) for depth in frames}


def sets_in_frames(client, examples):
    """A value is set in the frame that is asked for and in no other one, is told as it is there, and is taken back with the step before it."""
    with written(RECURSION) as source:
        at_depth_3(client, source, 4)
        before = values_in_frames(client, (2, 3))
        same(before, {2: ("0 1 0 1", "-5"), 3: ("1 2 1 2", "-5")})
        local, arguments, _ = client.scopes(2)
        parts = client.variables(arguments)["k"]["variablesReference"]
        given = lambda reference, name, value: client.ask("setVariable", variablesReference=reference, name=name, value=value)["value"]
        same(given(local, "deep", "7"), "7")
        same(given(arguments, "k", "9"), "9 9 9 9")
        same(given(parts, "k[2]", "-4"), "-4")
        same(client.ask("setExpression", expression="k[1]", value="5", frameId=2)["value"], "5")
        same(values_in_frames(client, (2, 3)), {2: ("9 5 -4 9", "7"), 3: before[3]})
        same(client.values(parts), {"k[0]": "9", "k[1]": "5", "k[2]": "-4", "k[3]": "9"})
        same(given(client.scopes(1)[0], "y", "-6"), "-6")
        same(client.ask("setExpression", expression="x", value="8", frameId=1, format={"hex": True})["value"], "0x8 0x8 0x8 0x8")
        same((client.value("x", 1), client.value("y", 1)), ("8 8 8 8", "-6"))
        same(client.refused("setVariable", variablesReference=local, name="deep", value="128"), OUT_OF_RANGE)
        same(client.refused("setVariable", variablesReference=parts, name="k[4]", value="1"), OUT_OF_RANGE)
        same(client.refused("setExpression", expression="x", value="1", frameId=2), NO_SUCH_NAME)
        same(client.refused("setExpression", expression="k + 1", value="1", frameId=2), BAD_VALUE)
        same(client.ask("setExpression", expression="total", value="-8", frameId=2)["value"], "-8")
        same([client.value("total", depth) for depth in (1, 2, 3)], ["-8"] * 3)
        same(values_in_frames(client, (3,)), {3: before[3]})
        client.move("stepBack")
        same(len(client.place()), 3)
        same(values_in_frames(client, (2, 3)), before)
        same((client.value("x", 1), client.value("y", 1), client.value("total")), ("0 3 6 9", "5", "7"))
        client.end()


def console_sets_in_frames(client, examples):
    """`set var` in the console sets the variable of the frame that is looked at, and is told that frame's values; `undo` takes that back."""
    with written(RECURSION) as source:
        at_depth_3(client, source, 4)
        typed = lambda line, **others: client.ask("evaluate", expression=line, context="repl", **others)
        before = values_in_frames(client, (2, 3))
        told = typed("set var k = 9", frameId=2)
        same((told["result"], client.values(told["variablesReference"])), ("k = 9 9 9 9", {f"k[{lane}]": "9" for lane in range(4)}))
        same(values_in_frames(client, (2, 3)), {2: ("9 9 9 9", "-5"), 3: before[3]})
        told = typed("set k[1] = 7", frameId=2)
        same((told["result"], told["variablesReference"]), ("k[1] = 7", 0))
        same(typed("set var deep = -1", frameId=2, format={"hex": True})["result"], "0xff")
        same(values_in_frames(client, (2, 3)), {2: ("9 7 9 9", "-1"), 3: before[3]})
        same(typed("undo", frameId=2)["result"], "undone poke: at 8:5 f depth 3 lanes 1111")
        client.event("stopped")
        same(client.value("deep", 2), "-5")
        same(typed("set var even = true", frameId=1)["result"], "even = true true true true")
        same(client.refused("evaluate", expression="set var x = 1", context="repl", frameId=2), NO_SUCH_NAME)
        same(client.refused("evaluate", expression="set var k[4] = 1", context="repl", frameId=2), OUT_OF_RANGE)
        for frame in ({}, {"frameId": 3}):
            same(typed("set var k = 4", **frame)["result"], "k = 4 4 4 4")
            same((client.value("k", 3), client.value("k", 2)), ("4 4 4 4", "9 7 9 9"))
            same(typed("set var k = 3", **frame)["result"], "k = 3 3 3 3")
        client.end()


# At the call of `f` in line 7 the variable `x` of `go` is set: `f` has its own copy, and line 8 adds the new value.
CALLED = """int f(int k) {
    return k + 1;
}
export void go() {
    const int most = 4;
    int x = programIndex;
    int y = f(x);
    x = x + y;
}
"""


def goes_on_with_what_is_set(client, examples):
    """The program goes on with a value that was set in an outer frame; a constant is not set there either."""
    with written(CALLED) as source:
        client.launch(source)
        client.breakpoints(2, 9)
        client.begin()
        client.move("continue")
        same([it[0] for it in client.place()], [2, 7])
        same(client.ask("setExpression", expression="x", value="10", frameId=1)["value"], "10 10 10 10")
        same(client.refused("setExpression", expression="most", value="7", frameId=1), CONSTANT)
        same(client.refused("evaluate", expression="set var most[1] = 7", context="repl", frameId=1), CONSTANT)
        same((client.value("k", 2), client.value("x", 1), client.value("most", 1)), ("0 1 2 3", "10 10 10 10", "4 4 4 4"))
        client.move("continue")
        same((client.value("y"), client.value("x")), ("1 2 3 4", "11 12 13 14"))
        client.end()


def references(client, examples):
    """The references of a second local, of a scalar of the file, of an array, and of nothing."""
    with written(RECURSION) as source:
        at_depth_3(client, source, 4)
        file = client.variables(client.scopes(3)[2])
        same({name: (it["value"], it["type"]) for name, it in file.items()}, {
            "wide": ("-3 -3 -3 -3", "varying int16"), "total": ("7", "uniform int32"), "table": ("5 elements", "uniform bool[5]"),
        })
        same(file["total"]["variablesReference"], 0)
        same(client.values(file["wide"]["variablesReference"]), {f"wide[{lane}]": "-3" for lane in range(4)})
        same(client.values(file["table"]["variablesReference"]), {f"table[{i}]": "true" if i == 2 else "false" for i in range(5)})
        found = client.ask("setVariable", variablesReference=file["table"]["variablesReference"], name="table[4]", value="true")
        same(found["value"], "true")
        local = client.variables(client.scopes(1)[0])
        same(local["y"]["variablesReference"], 0)
        same(client.values(local["even"]["variablesReference"])["even[1]"], "false")
        for number in (0, 9, 2**31, 7013):
            same(client.refused("variables", variablesReference=number), NO_REFERENCE)
        client.end()


def frames_by_pieces(client, examples):
    """So many frames from a place on, the top one first; and how many there are always."""
    with written(RECURSION) as source:
        at_depth_3(client, source, 8)
        for start in (None, 0, 1, 2, 3, 4, 2**31 - 1):
            for levels in (None, 0, 1, 2, 3, 20):
                given = {name: it for name, it in (("startFrame", start), ("levels", levels)) if it is not None}
                body = client.ask("stackTrace", threadId=1, **given)
                same([it["id"] for it in body["stackFrames"]], [3, 2, 1][start or 0 :][: levels or None])
                same(body["totalFrames"], 3)
        same(client.refused("stackTrace", threadId=1, startFrame="1"), wrong("startFrame"))
        same(client.refused("stackTrace", threadId=1, startFrame=0, levels=-1), wrong("levels"))
        client.end()


def wrong(argument):
    return f"the argument `{argument}` is missing or of a wrong type"


def texts_with_braces(client, examples):
    """Braces in the text of a refusal stand for no variable."""
    with written(RECURSION) as source:
        at_depth_3(client, source, 16)
        for name in ("{x}", "{", "}", "{text}", "{{text}}"):
            same(client.refused(name), f"no request {name}")
        client.end()


def lanes_of_what_is_set(client, examples):
    """What is set opens into its lanes, as it does among the variables of its frame; a uniform scalar, a lane and an element open into nothing."""
    with written(RECURSION) as source:
        at_depth_3(client, source, 4)
        by_name = lambda text, value, depth: client.ask("setExpression", expression=text, value=value, frameId=depth)
        by_list = lambda reference, name, value: client.ask("setVariable", variablesReference=reference, name=name, value=value)
        for depth in (2, 3):
            local, arguments, file = client.scopes(depth)
            opens = {name: it["variablesReference"] for at in (local, arguments, file) for name, it in client.variables(at).items()}
            same(client.values(by_name("k", "9", depth)["variablesReference"]), {f"k[{lane}]": "9" for lane in range(4)})
            same((by_name("k", "8", depth), by_list(arguments, "k", "8")), ({"value": "8 8 8 8", "variablesReference": opens["k"]},) * 2)
            same((by_name("r", "7", depth), by_list(local, "r", "7")), ({"value": "7 7 7 7", "variablesReference": opens["r"]},) * 2)
            same((by_name("wide", "-1", depth), by_list(file, "wide", "-1")), ({"value": "-1 -1 -1 -1", "variablesReference": opens["wide"]},) * 2)
            same((by_name("deep", "1", depth), by_list(local, "deep", "1")), ({"value": "1", "variablesReference": 0},) * 2)
            same((by_name("total", "2", depth), by_list(file, "total", "2")), ({"value": "2", "variablesReference": 0},) * 2)
            same((by_name("k[2]", "5", depth), by_list(opens["k"], "k[2]", "5")), ({"value": "5", "variablesReference": 0},) * 2)
            same((by_name("table[4]", "true", depth), by_list(opens["table"], "table[4]", "true")), ({"value": "true", "variablesReference": 0},) * 2)
            same(client.values(by_name("k[1]", "5", depth)["variablesReference"] or opens["k"])["k[1]"], "5")
        client.end()


AT_END = {"wide": "-3 -3 -3 -3", "total": "7", "table": "5 elements"}


def frame_at_the_end(client, examples):
    """At the end there is one frame, at the closing brace of the entry function, in which the variables of the file are shown, looked up and set."""
    last = RECURSION.count("\n")
    with written(RECURSION) as source:
        for more in ({}, {"history": 1}, {"stopOnEntry": False}):
            client.launch(source, **more)
            stop = client.begin() if more.get("stopOnEntry") is False else client.begin() and client.move("continue")
            same((stop["text"], client.place()), ("ended", [(last, 1, "go (ended)")]))
            body = client.ask("stackTrace", threadId=1, startFrame=0, levels=20)
            same((body["stackFrames"][0]["id"], body["totalFrames"]), (1, 1))
            same(client.ask("stackTrace", threadId=1, startFrame=1)["stackFrames"], [])
            file = client.file_at_end()
            same(client.values(file), AT_END)
            same([client.value(text, 1) for text in ("total", "wide[2]", "table[2]")], ["7", "-3", "true"])
            same(client.values(client.variables(file)["table"]["variablesReference"])["table[2]"], "true")
            same([it["label"] for it in client.ask("completions", text="to", column=3, frameId=1)["targets"]], ["total"])
            same(client.ask("dataBreakpointInfo", name="total", frameId=1)["dataId"], "total")
            same(client.values(11), {})
            for number in (0, 2, 2**31):
                same(client.refused("scopes", frameId=number), NO_FRAME)
                same(client.refused("evaluate", expression="total", frameId=number), NO_FRAME)
            same(client.ask("setVariable", variablesReference=file, name="total", value="-8")["value"], "-8")
            same(client.ask("setExpression", expression="wide", value="4", frameId=1)["value"], "4 4 4 4")
            same((client.value("total", 1), client.value("wide", 1)), ("-8", "4 4 4 4"))
            client.again()
        # Back from the end, and on to it again, the frames are those of the call, and then that of the end.
        client.launch(source)
        client.begin()
        client.move("continue")
        client.ask("setExpression", expression="total", value="9", frameId=1)
        client.move("stepBack")
        same((client.place(), client.value("total", 1)), ([(last, 1, "go [1111]")], "7"))
        client.scopes(1)
        client.move("next")
        same((client.place(), client.value("total", 1)), ([(last, 1, "go (ended)")], "7"))
        client.ask("restart")
        same(client.event("stopped")["reason"], "entry")
        same(client.place(), [(12, 5, "go [1111]")])
        same(client.move("continue")["text"], "ended")
        same(client.place(), [(last, 1, "go (ended)")])
        client.end()


def entries_at_the_end(client, examples):
    """The frame of the end names the function that the launch began with, also behind a restart of another text."""
    first = "uniform int n = 0;\nexport void one() {\n    n = 1;\n}\nexport void two() {\n    n = 2;\n    return;\n    }\n"
    with written(first) as source:
        for entry, last, column, value in (("one", 4, 1, "1"), ("two", 8, 5, "2")):
            client.launch(source, entry=entry)
            client.begin()
            client.move("continue")
            same((client.place(), client.value("n", 1)), ([(last, column, f"{entry} (ended)")], value))
            client.again()
        client.launch(source, entry="two", stopOnEntry=False)
        same((client.begin()["text"], client.place()), ("ended", [(8, 5, "two (ended)")]))
        source.write_text("uniform int n = 5;\n\nexport void two() {\n}\nexport void one() {\n}\n")
        client.ask("restart")
        same((client.event("stopped")["text"], client.place(), client.value("n", 1)), ("ended", [(4, 1, "two (ended)")], "5"))
        client.end()


FRAME_CHECKS = [lanes_of_what_is_set, frame_at_the_end, entries_at_the_end, own_variables(4), own_variables(8), own_variables(16), outer_frames, sets_in_frames, console_sets_in_frames, goes_on_with_what_is_set, references, frames_by_pieces, texts_with_braces]
