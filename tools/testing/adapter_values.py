"""Checks of the debug adapter: the values of expressions in each frame, lanes that wait, and arrays that are shown piece by piece."""

import contextlib
import pathlib
import tempfile

from .adapter_frames import NO_FRAME, NO_REFERENCE, RECURSION, at_depth_3, row, written
from .adapter_members import WAITS, need, same
from .adapter_refusals import NO_LINE, NO_SUCH_NAME, NO_SUCH_NUMBER, OUT_OF_RANGE

WIDTHS = (8, 16)

# Each type with its bits, and whether it has negative values.
TYPES = {
    "int8": (8, True), "int16": (16, True), "int32": (32, True), "int64": (64, True),
    "uint8": (8, False), "uint16": (16, False), "uint32": (32, False), "uint64": (64, False),
}


def wrapped(kind, value):
    """A whole number as a value of a type."""
    bits, is_signed = TYPES[kind]
    value %= 2**bits
    return value - 2**bits if is_signed and value >= 2 ** (bits - 1) else value


def joined(one, other):
    """The type of two operands: the wider one, at equal width the unsigned one."""
    return max(one, other, key=lambda kind: (TYPES[kind][0], not TYPES[kind][1]))


def truths(values):
    return row("true" if it else "false" for it in values)


def at_widths(check, widths=WIDTHS):
    """A check at each of these widths."""

    def named(width):
        def at_width(client, examples):
            check(client, width)

        at_width.__name__ = f"{check.__name__}_at_width_{width}"
        return at_width

    return [named(width) for width in widths]


# ---- expressions


def in_each_frame(client, width):
    """The names of an expression are those of its frame, and so are its values; a fault or a refusal is told with its reason."""
    lanes = range(width)
    with written(RECURSION) as source:
        at_depth_3(client, source, width)
        for depth in (2, 3):
            own = [lane % 2 + depth - 2 for lane in lanes]
            same(client.value("k + 1", depth), row(it + 1 for it in own))
            same(client.value("r - k * 100", depth), row(10 - 99 * it for it in own))
            same(client.value("k > 0 && deep < 0", depth), truths(it > 0 for it in own))
            same(client.value("reduce_add(k)", depth), str(sum(own)))
            same(client.value("deep - 1", depth), "-6")
        same(client.value("x - programIndex", 1), row(lane * 2 for lane in lanes))
        same(client.value("total * y", 1), "35")
        same(client.value("table[2]", 1), "true")
        same(client.value("table[2]", 3), "true")
        same(client.value("k + 1"), row(lane % 2 + 2 for lane in lanes))
        same(client.value("programIndex"), row(lanes))
        same(client.value("programCount - 1"), str(width - 1))
        same(client.value("true"), "true")
        for context in ("watch", "hover", "repl", "variables"):
            same(client.ask("evaluate", expression="wide * wide", context=context, frameId=3)["result"], row([9] * width))
            same(client.ask("evaluate", expression="k - 1", context=context, frameId=2)["result"], row(lane % 2 - 1 for lane in lanes))
        same(client.ask("evaluate", expression="k", context="repl")["result"], "k = " + row(lane % 2 + 1 for lane in lanes))
        same(client.ask("evaluate", expression="print k", context="repl")["result"], "k = " + row(lane % 2 + 1 for lane in lanes))
        refuses_in_frames(client)
        same(client.place()[0][0], 8)
        client.end()


def refuses_in_frames(client):
    """Why a text has no value in a frame of the recursion."""
    unknown = "no variable of this name is in scope in this frame or of the file"
    called = "S9 NoOverload, column 3: a function of the program is not called here"
    for text, depth, why in [
        ("k + 1", 1, f"S5 UnknownName, column 1: {unknown}"),
        ("1 + x", 3, f"S5 UnknownName, column 5: {unknown}"),
        ("x", 3, f"S5 UnknownName, column 1: {unknown}"),
        ("counts[3] == 2", 3, f"S5 UnknownName, column 1: {unknown}"),
        ("1+f(k)", 3, called),
        ("1 / k", 2, "F1 DivideByZero in lane 0: the expression has no value"),
        ("table[k + 4]", 3, "F2 Index in lane 0: the expression has no value"),
        ("table[3 + k]", 3, "F2 Index in lane 1: the expression has no value"),
        ("k @ 1", 3, "S1 BadByte, column 3: nothing in an expression begins with this byte"),
        ("table + 1", 2, "S8 Type, column 1: the type does not fit: an array has no value without an index, and a bool is no number"),
        ("k + 1", 4, NO_FRAME),
        ("k + 1", 0, NO_FRAME),
    ]:
        for context in ("watch", "hover", "repl"):
            same(client.refused("evaluate", expression=text, context=context, frameId=depth), why)
    same(client.refused("evaluate", expression="k +", context="watch").split(":")[0].split(",")[0], "S3 Unexpected")
    same(client.refused("evaluate", expression="table[7]", context="watch"), OUT_OF_RANGE)
    same(client.refused("evaluate", expression="print nothing", context="repl"), NO_SUCH_NAME)
    same(client.refused("evaluate", expression="watch nothing", context="repl"), NO_SUCH_NAME)
    same(client.refused("evaluate", expression="break 9999", context="repl"), NO_LINE)
    same(client.refused("evaluate", expression="delete 77", context="repl"), NO_SUCH_NUMBER)


def types(client, width):
    """Expressions of each of the nine types, uniform and varying, with negative values where there are some."""
    lanes = range(width)
    lines = [f"    {kind} v_{kind} = programIndex - 3;\n    uniform {kind} u_{kind} = -5;\n" for kind in TYPES]
    text = "export void go() {\n" + "".join(lines) + "    bool b = programIndex % 3 == 0;\n    uniform bool c = true;\n    b = c;\n}\n"
    with written(text) as source:
        client.launch(source, width=width, stopOnEntry=False)
        client.breakpoints(text.count("\n") - 1)
        client.begin()
        for kind in TYPES:
            values = [wrapped(kind, lane - 3) for lane in lanes]
            same(client.value(f"v_{kind} + v_{kind}"), row(wrapped(kind, 2 * it) for it in values))
            same(client.value(f"-v_{kind}"), row(wrapped(kind, -it) for it in values))
            same(client.value(f"v_{kind} > 0"), truths(it > 0 for it in values))
            both = joined(kind, "int32")
            same(client.value(f"u_{kind} - 1"), str(wrapped(both, wrapped(kind, -5) - 1)))
            same(client.value(f"({kind})7 * u_{kind}"), str(wrapped(kind, 7 * wrapped(kind, -5))))
        same(client.value("!b"), truths(lane % 3 != 0 for lane in lanes))
        same(client.value("b ? 10 : -20"), row(10 if lane % 3 == 0 else -20 for lane in lanes))
        same(client.value("c & !c"), "false")
        client.end()


# Lanes 1, 3 and so on wait at line 5, in both frames.
HALF = """varying int16 far = -3;
uniform int8 near = -2;
int f(int k) {
    int r = k - 40;
    return r;
}
export void go() {
    int x = programIndex * 3;
    if (programIndex % 2 == 0) {
        x += 1;
        x = f(x);
    }
}
"""


def at_half(client, source, width):
    client.launch(source, width=width, stopOnEntry=False)
    client.breakpoints(5)
    same(client.begin()["reason"], "breakpoint")
    same(client.place()[0][2], "f [" + "10" * (width // 2) + "]")


def waiting_values(client, width):
    """A lane that waits has no value as an expression, in each frame; a name shows what each lane has."""
    lanes = range(width)
    seen = lambda value: row(value(lane) if lane % 2 == 0 else "." for lane in lanes)
    with written(HALF) as source:
        at_half(client, source, width)
        for context in ("watch", "hover", "repl"):
            told = lambda text, depth: client.ask("evaluate", expression=text, context=context, frameId=depth)["result"]
            same(told("r + 1", 2), seen(lambda lane: lane * 3 - 38))
            same(told("r < -30", 2), seen(lambda lane: "true" if lane * 3 - 39 < -30 else "false"))
            same(told("x - 1", 1), seen(lambda lane: lane * 3))
            same(told("far + 0", 1), seen(lambda lane: -3))
            same(told("near + 1", 2), "-1")
            same(told("reduce_max(x)", 1), str((width - 2) * 3 + 1))
        same(client.value("x", 1), row(lane * 3 + (lane % 2 == 0) for lane in lanes))
        same(client.value("far", 2), row([-3] * width))
        client.breakpoints()
        same(client.move("continue")["text"], "ended")
        same(client.refused("evaluate", expression="far + 1", context="watch"), "the program has ended, and no frame has values")
        same(client.value("far"), row([-3] * width))
        client.end()


def waiting_lanes(client, width):
    """A lane that waits is marked in its name and its value, in each frame; the mark is left out of what is asked, set and watched."""
    lanes = range(width)
    mark = lambda lane: WAITS if lane % 2 else ""
    with written(HALF) as source:
        at_half(client, source, width)
        caller, file = client.scopes(1)[0], client.scopes(2)[2]
        local, arguments, _ = client.scopes(2)
        parts = client.variables(client.variables(caller)["x"]["variablesReference"])
        wanted = {f"x[{lane}]{mark(lane)}": f"{lane * 3 + (lane % 2 == 0)}{mark(lane)}" for lane in lanes}
        same({name: it["value"] for name, it in parts.items()}, wanted)
        same([it["evaluateName"] for it in parts.values()], [f"x[{lane}]" for lane in lanes])
        of_file = client.variables(file)["far"]["variablesReference"]
        same(client.values(of_file), {f"far[{lane}]{mark(lane)}": f"-3{mark(lane)}" for lane in lanes})
        given = client.variables(arguments)["k"]["variablesReference"]
        same(list(client.values(given)), [f"k[{lane}]{mark(lane)}" for lane in lanes])
        own = client.variables(local)["r"]["variablesReference"]
        same([client.values(own)[f"r[{lane}]"] for lane in lanes if lane % 2 == 0], [str(lane * 3 - 39) for lane in lanes if lane % 2 == 0])
        same(client.ask("setVariable", variablesReference=own, name="r[1] (waits)", value="-9 (waits)")["value"], "-9")
        same(client.values(own)["r[1] (waits)"], "-9 (waits)")
        need(client.refused("setVariable", variablesReference=own, name="r[1] (waits) (waits)", value="1").startswith("C1"), "two marks are left out")
        same(client.ask("dataBreakpointInfo", name="far[3] (waits)", variablesReference=of_file)["dataId"], "far[3]")
        client.breakpoints()
        same(client.move("continue")["text"], "ended")
        same(client.values(of_file), {f"far[{lane}]": "-3" for lane in lanes})
        same(client.refused("variables", variablesReference=own), NO_REFERENCE)
        client.end()


# ---- arrays

ARRAYS = """uniform int table[2500];
uniform int8 even[1000];
varying int far = -3;
void f(uniform int16 part[], uniform int n) {
    int x = n;
    x += part[1];
}
export void go(uniform int16 a[], uniform int count) {
    uniform int64 y = -1;
    f(a, count);
}
"""
TABLE = [(i * 7919 - 5000000) for i in range(2500)]
EVEN = [(i * 37) % 256 - 128 for i in range(1000)]
GIVEN = [(i * 101) % 65536 - 32768 for i in range(1001)]


@contextlib.contextmanager
def in_arrays(client, width):
    """A run at depth 2, with arrays of 2,500, of 1,000 and of 1,001 elements."""
    with written(ARRAYS) as source, tempfile.TemporaryDirectory() as folder:
        given = pathlib.Path(folder) / "arrays.input"
        given.write_text(f"table = {row(TABLE)}\neven = {row(EVEN)}\na = {row(GIVEN)}\ncount = 1001\n")
        client.launch(source, width=width, input=str(given), stopOnEntry=False)
        client.breakpoints(6)
        same(client.begin()["reason"], "breakpoint")
        yield


def children(client, reference, **page):
    return client.ask("variables", variablesReference=reference, **page)["variables"]


def elements(name, values, first, last):
    return [(f"{name}[{i}]", str(values[i])) for i in range(first, min(last, len(values)))]


def shown(items):
    return [(it["name"], it["value"]) for it in items]


def ranges(client, width):
    """An array of more than 1,000 elements opens into ranges, each of which opens into its elements: each element is reached."""
    with in_arrays(client, width):
        file = client.scopes(2)[2]
        table, even = client.variables(file)["table"], client.variables(file)["even"]
        same((table["value"], table["indexedVariables"], even["indexedVariables"]), ("2500 elements", 2500, 1000))
        need("indexedVariables" not in client.variables(file)["far"], "lanes are counted")
        pieces = children(client, table["variablesReference"])
        same(shown(pieces), [("table[0..999]", "1000 elements"), ("table[1000..1999]", "1000 elements"), ("table[2000..2499]", "500 elements")])
        same([(it["type"], "evaluateName" in it) for it in pieces], [("int32", False)] * 3)
        found = [children(client, it["variablesReference"]) for it in pieces]
        same([shown(it) for it in found], [elements("table", TABLE, first, first + 1000) for first in (0, 1000, 2000)])
        same([it["evaluateName"] for it in found[2]], [f"table[{i}]" for i in range(2000, 2500)])
        same(shown(children(client, even["variablesReference"])), elements("even", EVEN, 0, 1000))
        for depth, name in ((2, "part"), (1, "a")):
            given = client.variables(client.scopes(depth)[1])[name]
            pieces = children(client, given["variablesReference"])
            same(shown(pieces), [(f"{name}[0..999]", "1000 elements"), (f"{name}[1000..1000]", "1 elements")])
            same(shown(children(client, pieces[0]["variablesReference"])), elements(name, GIVEN, 0, 1000))
            same(shown(children(client, pieces[1]["variablesReference"])), elements(name, GIVEN, 1000, 1001))
        inner = pieces_of(client, 2)
        second = children(client, table["variablesReference"])[1]["variablesReference"]
        same(client.ask("setVariable", variablesReference=second, name="table[1500]", value="-7")["value"], "-7")
        same((client.value("table[1500]", 1), client.value("table[1501] + 0", 1)), ("-7", str(TABLE[1501])))
        client.breakpoints()
        client.move("stepOut")
        same(client.refused("variables", variablesReference=inner), NO_REFERENCE)
        same(client.refused("variables", variablesReference=inner, start=1, count=1), NO_REFERENCE)
        same(shown(children(client, second, start=500, count=1)), [("table[1500]", "-7")])
        client.end()


def pieces_of(client, depth):
    """The reference of the last range of the first parameter of a frame."""
    given = next(iter(client.variables(client.scopes(depth)[1]).values()))
    return children(client, given["variablesReference"])[-1]["variablesReference"]


def pages(client, width):
    """`start` and `count` choose from the children of arrays, ranges, lanes and scopes, and `filter` their kind."""
    with in_arrays(client, width):
        file = client.scopes(2)[2]
        table = client.variables(file)["table"]["variablesReference"]
        for page, first, last in [
            ({"start": 1500, "count": 3}, 1500, 1503), ({"start": 2498, "count": 5}, 2498, 2500), ({"start": 2500, "count": 1}, 0, 0),
            ({"count": 2}, 0, 2), ({"start": 2497}, 2497, 2500), ({"start": 0, "count": 0}, 0, 2500), ({"start": 999, "count": 1002}, 999, 2001),
            ({"start": 7, "count": 1, "filter": "indexed"}, 7, 8), ({"start": 7, "count": None}, 7, 2500), ({"start": 2**53, "count": 1}, 0, 0),
            ({"start": 7, "count": 1, "filter": "named"}, 0, 0), ({"start": 3, "count": 2**53}, 3, 2500),
        ]:
            same(shown(children(client, table, **page)), elements("table", TABLE, first, last))
        for page, wanted in [({"filter": "indexed"}, 3), ({"filter": None}, 3), ({"filter": "named"}, 0), ({"filter": "another"}, 3)]:
            same(len(children(client, table, **page)), wanted)
        second = children(client, table)[1]["variablesReference"]
        same(shown(children(client, second, start=998, count=5)), elements("table", TABLE, 1998, 2000))
        same(shown(children(client, second, start=0, count=2)), elements("table", TABLE, 1000, 1002))
        same(children(client, second, filter="named"), [])
        lanes = client.variables(file)["far"]["variablesReference"]
        same(shown(children(client, lanes, start=2, count=2)), [("far[2]", "-3"), ("far[3]", "-3")])
        same(len(children(client, lanes, start=1)), width - 1)
        same(children(client, lanes, filter="named"), [])
        same([it["name"] for it in children(client, file, start=1, count=1)], ["even"])
        same([it["name"] for it in children(client, file, start=1)], ["even", "far"])
        same([it["name"] for it in children(client, file, count=2, filter="named")], ["table", "even"])
        same(children(client, file, filter="indexed"), [])
        arguments = client.scopes(2)[1]
        same([it["name"] for it in children(client, arguments, start=1, count=5)], ["n"])
        for name, value in [("start", -1), ("start", "1"), ("start", 1.5), ("count", "x"), ("count", -1), ("count", []), ("filter", 5), ("filter", {})]:
            same(client.refused("variables", **{"variablesReference": table, name: value}), f"the argument `{name}` is missing or of a wrong type")
        same(client.refused("variables", variablesReference=table, start="x", count="x", filter=1), "the argument `start` is missing or of a wrong type")
        for reference in (1009, 2009, 3000009):
            same(client.refused("variables", variablesReference=reference, start=0, count=1), NO_REFERENCE)
        client.end()


def hovers(client, width):
    """Under the mouse a value of more than 200 bytes is cut behind them; elsewhere it is whole."""
    with in_arrays(client, width):
        whole = row(EVEN)
        told = lambda text, context, **frame: client.ask("evaluate", expression=text, context=context, **frame)["result"]
        same(told("even", "hover"), whole[:200] + "...")
        same(told("even", "hover", frameId=1), whole[:200] + "...")
        same(told("even", "watch"), whole)
        same(told("even", "watch", frameId=1), whole)
        same(told("even", "repl"), "even = " + whole)
        long = " + ".join(["far * 0"] + ["1000000000000"] * 20)
        same(told(long, "watch"), row([20 * 10**12] * width))
        same(told(long, "hover"), cut(row([20 * 10**12] * width)))
        client.end()


def cut(text):
    return text[:200] + "..." if len(text) > 200 else text


VALUE_CHECKS = [check for it in (in_each_frame, types, waiting_values, waiting_lanes, ranges, pages, hovers) for check in at_widths(it)]
