"""Checks of the debug adapter: what the console prints in each frame and in which digits, hexadecimal values, and values that are only looked at."""

from .adapter_frames import RECURSION, at_depth_3, row, written
from .adapter_members import need, same
from .adapter_refusals import NO_SUCH_NAME
from .adapter_targets import UNKNOWN, at_widths
from .adapter_values import HALF, at_half

BITS = {"bool": 1, "int8": 8, "int16": 16, "int32": 32, "int64": 64}
SPELLED = {7: "\\a", 8: "\\b", 9: "\\t", 10: "\\n", 11: "\\v", 12: "\\f", 13: "\\r", 39: "\\'", 92: "\\\\"}


def character(value):
    """The low 8 bits of a value with a sign, and the character that they are."""
    byte = value % 256
    spelled = SPELLED.get(byte) or (chr(byte) if 32 <= byte <= 126 else f"\\{byte:03o}")
    return f"{byte - 256 if byte >= 128 else byte} '{spelled}'"


def digits(letter, kind, value):
    """A value of a type in the digits of a letter."""
    bits = value % 2 ** BITS[kind]
    if letter == "d":
        return str(value) if kind != "bool" else ("true" if value else "false")
    return {"x": f"0x{bits:x}", "t": f"{bits:b}", "o": f"0{bits:o}" if bits else "0", "u": str(bits), "c": character(value)}[letter]


def typed(client, text, frame=None, **others):
    """What a line of the console is answered, in a frame if it is given."""
    return client.ask("evaluate", expression=text, context="repl", **({} if frame is None else {"frameId": frame}), **others)["result"]


# ---- lines of the console


def prints_of_each_frame(client, width):
    """`print` and `p` in the console show what a name, a lane or an expression is in the frame that is asked for, and so do the lists of its variables."""
    lanes = range(width)
    own = {depth: [lane % 2 + depth - 2 for lane in lanes] for depth in (2, 3)}
    with written(RECURSION) as source:
        at_depth_3(client, source, width)
        for word in ("print", "p"):
            same(typed(client, f"{word} k", 2), row(own[2]))
            same(typed(client, f"{word} k", 3), "k = " + row(own[3]))
            same(typed(client, f"{word} k"), "k = " + row(own[3]))
            same(typed(client, f"{word} k[1]", 2), str(own[2][1]))
            same(typed(client, f"{word} x", 1), row(lane * 3 for lane in lanes))
            for depth in (2, 3):
                same(typed(client, f"{word} k * 2 - r", depth), row(it - 10 for it in own[depth]))
            same(typed(client, f"{word} k + 1"), row(it + 1 for it in own[3]))
            same(typed(client, f"{word} total", 1), "7")
            same(client.refused("evaluate", expression=f"{word} x", context="repl", frameId=2), f"S5 UnknownName, column 1: {UNKNOWN}")
            same(client.refused("evaluate", expression=f"{word} x", context="repl", frameId=3), NO_SUCH_NAME)
            same(client.refused("evaluate", expression=f"{word} k", context="repl", frameId=9), "no frame has this number now")
        for depth in (2, 3):
            same(sorted(typed(client, "info locals", depth).split("\n")), ["deep = -5", "r = " + row(it + 10 for it in own[depth])])
        truths = row("true" if lane % 2 == 0 else "false" for lane in lanes)
        same(sorted(typed(client, "info locals", 1).split("\n")), [f"even = {truths}", "x = " + row(lane * 3 for lane in lanes), "y = 5"])
        same(typed(client, "info args", 2), "k = " + row(own[2]))
        listed = client.ask("evaluate", expression="print k", context="repl", frameId=2)["variablesReference"]
        same(listed, client.ask("evaluate", expression="k", context="watch", frameId=2)["variablesReference"])
        need(listed > 0, "what is printed does not open")
        frames = len(client.place())
        same(typed(client, "reverse-step", 1)[:3], "at ")
        need(len(client.place()) <= frames, "a command of an outer frame is not done")
        client.end()


def formats_in_each_frame(client, width):
    """A letter behind `p/` or `print/` shows a value in its digits, in each frame."""
    lanes = range(width)
    own = {depth: [lane % 2 + depth - 2 for lane in lanes] for depth in (2, 3)}
    with written(RECURSION) as source:
        at_depth_3(client, source, width)
        for letter in "xtoucd":
            shown = lambda kind, values: row(digits(letter, kind, it) for it in values)
            for front in (f"p/{letter}", f"print/{letter}", f"p /{letter}"):
                for depth in (2, 3):
                    same(typed(client, f"{front} k", depth), shown("int32", own[depth]))
                    same(typed(client, f"{front} deep", depth), shown("int8", [-5]))
                    same(typed(client, f"{front} r[1]", depth), shown("int32", [own[depth][1] + 10]))
                    same(typed(client, f"{front} k - 100", depth), shown("int32", [it - 100 for it in own[depth]]))
                same(typed(client, f"{front} wide"), shown("int16", [-3] * width))
                same(typed(client, f"{front} even", 1), shown("bool", [lane % 2 == 0 for lane in lanes]))
                same(typed(client, f"{front} table", 1), shown("bool", [False, False, True, False, False]))
                same(typed(client, f"{front} y * -1", 1), shown("int64", [-5]))
        opened = client.ask("evaluate", expression="p/x k", context="repl", frameId=2)["variablesReference"]
        same(opened, client.ask("evaluate", expression="k", context="watch", frameId=2)["variablesReference"])
        for text in ("p/z k", "p/ k", "p/xk", "p/x"):
            need(client.refused("evaluate", expression=text, context="repl", frameId=2).startswith("S"), f"{text} is answered")
        for context in ("watch", "hover"):
            need(client.refused("evaluate", expression="p/x k", context=context, frameId=2).startswith("S"), "`p/x k` is answered elsewhere")
        same(client.refused("evaluate", expression="p/x x", context="repl", frameId=2), f"S5 UnknownName, column 2: {UNKNOWN}")
        client.end()


def formats_of_waiting_lanes(client, width):
    """A lane that waits is a point in other digits too."""
    with written(HALF) as source:
        at_half(client, source, width)
        same(typed(client, "p/x x + 0", 1), row(digits("x", "int32", lane * 3 + 1) if lane % 2 == 0 else "." for lane in range(width)))
        same(typed(client, "p/t near", 1), digits("t", "int8", -2))
        client.end()


# ---- hexadecimal values

HEX = {"format": {"hex": True}}


def hexadecimal_values(client, width):
    """Where an editor asks for hexadecimal numbers, variables, their lanes, expressions and values that are set are told so; bools stay words."""
    lanes = range(width)
    own = [lane % 2 + 1 for lane in lanes]
    told = lambda kind, values: row(digits("x", kind, it) for it in values)
    values = lambda reference, **others: {it["name"]: it["value"] for it in client.ask("variables", variablesReference=reference, **others)["variables"]}
    with written(RECURSION) as source:
        at_depth_3(client, source, width)
        local, arguments, file = client.scopes(3)
        same(values(local, **HEX), {"deep": "0xfb", "r": told("int32", [it + 10 for it in own])})
        same(values(local, format={"hex": False}), {"deep": "-5", "r": row(it + 10 for it in own)})
        same(values(file, **HEX), {"wide": row(["0xfffd"] * width), "total": "0x7", "table": "5 elements"})
        parts = client.variables(arguments)["k"]["variablesReference"]
        same(values(parts, **HEX), {f"k[{lane}]": digits("x", "int32", own[lane]) for lane in lanes})
        table = client.variables(file)["table"]["variablesReference"]
        same(values(table, **HEX), {f"table[{it}]": "true" if it == 2 else "false" for it in range(5)})
        for context in ("watch", "hover", "repl"):
            ask = lambda text, depth: client.ask("evaluate", expression=text, context=context, frameId=depth, **HEX)["result"]
            same(ask("k", 3), told("int32", own))
            same(ask("k - 2", 3), told("int32", [it - 2 for it in own]))
            same(ask("deep", 2), "0xfb")
            same(ask("even", 1), row("true" if lane % 2 == 0 else "false" for lane in lanes))
            same(ask("k > 1", 3), row("true" if it > 1 else "false" for it in own))
        same(typed(client, "p/d k", 3, **HEX), row(own))
        same(typed(client, "p/x even", 1, **HEX), row(digits("x", "bool", lane % 2 == 0) for lane in lanes))
        same(client.ask("setVariable", variablesReference=local, name="deep", value="-2", **HEX)["value"], "0xfe")
        same(client.ask("setExpression", expression="k[1]", value="-1", frameId=3, **HEX)["value"], "0xffffffff")
        same(client.ask("setExpression", expression="k[1]", value="-2", frameId=2, **HEX)["value"], "0xfffffffe")
        same(client.ask("setVariable", variablesReference=file, name="total", value="9")["value"], "9")
        client.end()


# ---- values that can be set


def settable(client, width):
    """No variable of a frame or of the file, and none of its lanes and elements, is told as one that is only read."""
    hints = lambda reference: [it["presentationHint"]["attributes"] for it in client.variables(reference).values()]
    with written(RECURSION) as source:
        at_depth_3(client, source, width)
        for depth in (3, 2, 1):
            local, arguments, file = client.scopes(depth)
            same(hints(local), [[]] * (3 if depth == 1 else 2))
            same(hints(arguments), [[]] * (0 if depth == 1 else 1))
            same(hints(file), [[]] * 3)
            name = "x" if depth == 1 else "r"
            same(hints(client.variables(local)[name]["variablesReference"]), [[]] * width)
            same(hints(client.variables(file)["table"]["variablesReference"]), [[]] * 5)
        client.end()


FORMAT_CHECKS = [check for it in (prints_of_each_frame, formats_in_each_frame, formats_of_waiting_lanes, hexadecimal_values, settable) for check in at_widths(it)]
