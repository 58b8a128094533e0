"""Checks of the debug adapter: the lanes into which the value of an expression opens, and how long its reference holds.

Each value is worked out here by the numbers of the lanes.
"""

from .adapter_formats import digits
from .adapter_frames import NO_FRAME, NO_REFERENCE, NOT_SET, RECURSION, at_depth_3, written
from .adapter_members import WAITS, need, same
from .adapter_refusals import NO_HISTORY
from .adapter_targets import CONTEXTS, asked, at_widths
from .adapter_values import HALF, TYPES, at_half, children, joined, wrapped

# How many texts open between two stops, and how long each may be.
TEXTS, LONGEST = 64, 256


def reference(client, text, depth, context="watch"):
    """The reference of what a request to evaluate shows."""
    return client.ask("evaluate", **asked(text, depth, context))["variablesReference"]


def lanes_of(client, opened, **page):
    """The names and values of the lanes of a reference."""
    return [(it["name"], it["value"]) for it in children(client, opened, **page)]


def shown(values):
    """Lanes with these values, in the order of the lanes."""
    return [(f"[{lane}]", str(value)) for lane, value in enumerate(values)]


def words(values):
    return ["true" if it else "false" for it in values]


# ---- values


def lanes_in_each_frame(client, width):
    """A value that varies opens into its lanes in each frame, whatever the request stands for; one that does not opens into nothing."""
    lanes = range(width)
    with written(RECURSION) as source:
        at_depth_3(client, source, width)
        own = {depth: [lane % 2 + depth - 2 for lane in lanes] for depth in (2, 3)}
        wanted = [("x + 1", 1, "int32", [lane * 3 + 1 for lane in lanes]), ("x - 100", 1, "int32", [lane * 3 - 100 for lane in lanes])]
        wanted += [("k - 1", depth, "int32", [it - 1 for it in own[depth]]) for depth in (2, 3)]
        wanted += [("r - k * 100", depth, "int32", [10 - 99 * it for it in own[depth]]) for depth in (2, 3)]
        wanted += [("k > 1", depth, "bool", words(it > 1 for it in own[depth])) for depth in (2, 3)]
        wanted += [("!even", 1, "bool", words(lane % 2 for lane in lanes)), ("wide * wide", 3, "int16", [9] * width)]
        wanted += [("programIndex", 2, "int32", list(lanes)), ("y + x", 1, "int64", [lane * 3 + 5 for lane in lanes])]
        for context in CONTEXTS:
            for text, depth, kind, values in wanted:
                opened = reference(client, text, depth, context)
                need(opened > 0, f"{text} does not open at depth {depth}")
                same(lanes_of(client, opened), shown(values))
                same({it["type"] for it in children(client, opened)}, {kind})
                same({it["variablesReference"] for it in children(client, opened)}, {0})
            for text, depth in [("total + y", 1), ("deep - 1", 3), ("7", 2), ("reduce_add(k)", 3), ("x[2]", 1), ("total", 3), ("programCount", 1)]:
                same(reference(client, text, depth, context), 0)
            for text, depth, scope in [("x", 1, 0), ("k", 2, 1), ("k", 3, 1), ("wide", 2, 2)]:
                same(reference(client, text, depth, context), client.variables(client.scopes(depth)[scope])[text]["variablesReference"])
        for line in ("print k + 1", "p k + 1", "p/x k + 1"):
            same(lanes_of(client, reference(client, line, 2, "repl")), shown(it + 1 for it in own[2]))
        for line in ("info locals", "info args", "help", "info breakpoints"):
            same(reference(client, line, 3, "repl"), 0)
        client.end()


def lanes_of_each_type(client, width):
    """The lanes of values of each type, in decimal and in hexadecimal digits; bools stay words."""
    lanes = range(width)
    lines = [f"    {kind} v_{kind} = programIndex - 3;\n" for kind in TYPES]
    text = "export void go() {\n" + "".join(lines) + "    bool b = programIndex % 3 == 0;\n    b = !b;\n}\n"
    with written(text) as source:
        client.launch(source, width=width, stopOnEntry=False)
        client.breakpoints(text.count("\n") - 1)
        client.begin()
        for kind in TYPES:
            both = joined(kind, "int32")
            values = [wrapped(both, 2 * wrapped(kind, lane - 3)) for lane in lanes]
            opened = reference(client, f"v_{kind} * ({both})2", 1)
            same(lanes_of(client, opened), shown(values))
            same({it["type"] for it in children(client, opened)}, {both})
            signed = f"int{TYPES[both][0]}"
            same(lanes_of(client, opened, format={"hex": True}), shown(digits("x", signed, it) for it in values))
            same(lanes_of(client, opened, format={"hex": False}), shown(values))
            narrow = reference(client, f"-v_{kind}", 1)
            same(lanes_of(client, narrow), shown(wrapped(kind, 3 - lane) for lane in lanes))
            same({it["type"] for it in children(client, narrow)}, {kind})
        truths = reference(client, "!b", 1)
        for page in ({}, {"format": {"hex": True}}):
            same(lanes_of(client, truths, **page), shown(words(lane % 3 != 0 for lane in lanes)))
        client.end()


def lanes_that_wait(client, width):
    """A lane that waits where the frame stands is marked, and has no value."""
    with written(HALF) as source:
        at_half(client, source, width)
        for text, depth, value in [("r + 1", 2, lambda lane: lane * 3 - 38), ("k * -1", 2, lambda lane: -lane * 3 - 1), ("x - 1", 1, lambda lane: lane * 3), ("far + 0", 2, lambda lane: -3)]:
            wanted = [(f"[{lane}]", str(value(lane))) if lane % 2 == 0 else (f"[{lane}]{WAITS}", f".{WAITS}") for lane in range(width)]
            same(lanes_of(client, reference(client, text, depth)), wanted)
            same(lanes_of(client, reference(client, text, depth), format={"hex": True})[1], wanted[1])
            same(lanes_of(client, reference(client, text, depth), start=1, count=2), wanted[1:3])
        client.end()


def pages_of_lanes(client, width):
    """`start` and `count` choose from the lanes, and `filter` their kind."""
    with written(RECURSION) as source:
        at_depth_3(client, source, width)
        opened = reference(client, "x * 2", 1)
        every = shown(lane * 6 for lane in range(width))
        for page, first, last in [
            ({"start": 1, "count": 2}, 1, 3), ({"start": width - 1, "count": 5}, width - 1, width), ({"start": width, "count": 1}, 0, 0),
            ({"start": 2}, 2, width), ({"count": 3}, 0, 3), ({"start": 0, "count": 0}, 0, width), ({"start": 2**53, "count": 1}, 0, 0),
            ({"filter": "indexed"}, 0, width), ({"filter": "named"}, 0, 0), ({"start": 1, "count": 1, "filter": "indexed"}, 1, 2),
        ]:
            same(lanes_of(client, opened, **page), every[first:last])
        same(client.refused("variables", variablesReference=opened, start=-1), "the argument `start` is missing or of a wrong type")
        client.end()


def values_as_they_are(client, width):
    """The lanes are those of the frame as it is when they are asked for; a value that is gone by then is refused with its reason."""
    lanes = range(width)
    with written(RECURSION) as source:
        at_depth_3(client, source, width)
        opened, quotient = reference(client, "k + 1", 3), reference(client, "12 / k", 3)
        own = [lane % 2 + 1 for lane in lanes]
        same(lanes_of(client, quotient), shown(12 // it for it in own))
        arguments = client.scopes(3)[1]
        same(client.ask("setVariable", variablesReference=arguments, name="k", value="6")["value"], " ".join(["6"] * width))
        same((lanes_of(client, opened), lanes_of(client, quotient)), (shown([7] * width), shown([2] * width)))
        client.ask("setVariable", variablesReference=arguments, name="k", value="0")
        same(lanes_of(client, opened), shown([1] * width))
        same(client.refused("variables", variablesReference=quotient), "F1 DivideByZero in lane 0: the expression has no value")
        same(client.refused("setVariable", variablesReference=opened, name="[0]", value="9"), NOT_SET)
        same(lanes_of(client, opened), shown([1] * width))
        client.end()


# ---- references


def each_text_once(client, width):
    """The same text of the same frame has one reference, another text or another frame another one."""
    with written(RECURSION) as source:
        at_depth_3(client, source, width)
        same(client.refused("variables", variablesReference=1000), NO_REFERENCE)
        first = reference(client, "k + 1", 3)
        for context in CONTEXTS:
            same(reference(client, "k + 1", 3, context), first)
        same(client.ask("evaluate", expression="k + 1", context="watch")["variablesReference"], first)
        others = [reference(client, text, depth) for text, depth in [("k + 1", 2), ("k + 2", 3), ("k +1", 3), ("x + 1", 1)]]
        same(len({first, *others}), 5)
        same([reference(client, "k + 1", 2), reference(client, "k + 1", 3)], [others[0], first])
        scopes = {it for depth in (1, 2, 3) for scope in client.scopes(depth) for it in (scope, *(one["variablesReference"] for one in children(client, scope)))}
        need(not scopes & {first, *others}, "a variable has the reference of an expression")
        for text, depth in [("k + 1", 1), ("1 / (k - k)", 3), ("k +", 3)]:
            client.refused("evaluate", **asked(text, depth, "watch"))
        same(client.refused("evaluate", **asked("k + 1", 4, "watch")), NO_FRAME)
        need(reference(client, "k + 3", 3) not in (0, first, *others), "two texts have one reference")
        for number in (0, 999, 7000, 64000, 65000, 2**31):
            same(client.refused("variables", variablesReference=number), NO_REFERENCE)
        client.end()


def held_to_the_next_stop(client, width):
    """A reference is refused behind the next stop, also one that tells a refused move anew, and behind a restart; a variable that is set leaves it."""
    texts = ("programIndex + 1", "programIndex * -2")
    values = [shown(lane + 1 for lane in range(width)), shown(lane * -2 for lane in range(width))]

    def opens():
        opened = [reference(client, text, 1) for text in texts]
        same([lanes_of(client, it) for it in opened], values)
        return opened

    def gone():
        for it in opened:
            same(client.refused("variables", variablesReference=it), NO_REFERENCE)
        same(opens(), opened)

    with written(RECURSION) as source:
        client.launch(source, width=width)
        client.begin()
        opened = opens()
        for move in ("next", "next", "stepBack", "stepIn"):
            client.move(move)
            gone()
        for line in ("step", "reverse-step"):
            same(reference(client, line, 1, "repl"), 0)
            client.event("stopped")
            gone()
        client.move("reverseContinue")
        gone()
        client.refused_move("stepBack", NO_HISTORY)
        gone()
        client.ask("setVariable", variablesReference=client.scopes(1)[2], name="total", value="8")
        same([lanes_of(client, it) for it in opened], values)
        client.ask("restart")
        same(client.event("stopped")["reason"], "entry")
        gone()
        client.end()


def at_the_end(client, width):
    """Behind the end of the program no expression opens, and no reference holds."""
    with written(RECURSION) as source:
        at_depth_3(client, source, width)
        opened = reference(client, "k + 1", 3)
        client.breakpoints()
        same(client.move("continue")["text"], "ended")
        same(client.refused("variables", variablesReference=opened), NO_REFERENCE)
        client.refused("evaluate", expression="wide + 1", context="watch")
        same(client.refused("variables", variablesReference=opened), NO_REFERENCE)
        client.end()


def as_many_as_there_can_be(client, width):
    """64 texts open between two stops, each of at most 256 bytes; of others the value is told."""
    lanes = range(width)
    with written(RECURSION) as source:
        at_depth_3(client, source, width)
        own = [lane % 2 + 1 for lane in lanes]
        long = "k" + " + 1" * 63 + " +1"
        same(len(long), LONGEST)
        wider = long.replace(" +1", " + 1")
        same((client.value(wider, 3), reference(client, wider, 3)), (" ".join(str(it + 64) for it in own), 0))
        found = [reference(client, long, 3)]
        same(lanes_of(client, found[0]), shown(it + 64 for it in own))
        found += [reference(client, f"k * {it}", 3) for it in range(1, TEXTS)]
        need(0 not in found and len(set(found)) == TEXTS, f"not {TEXTS} references: {found}")
        for text, depth in [("k * 64", 3), ("k * 1", 2), ("x + 1", 1)]:
            same(reference(client, text, depth), 0)
        same(client.value("k * 64", 3), " ".join(str(it * 64) for it in own))
        for it in (1, 2, 37, TEXTS - 1):
            same(reference(client, f"k * {it}", 3), found[it])
            same(lanes_of(client, found[it]), shown(number * it for number in own))
        same(lanes_of(client, found[0]), shown(it + 64 for it in own))
        client.move("stepBack")
        same(client.refused("variables", variablesReference=found[5]), NO_REFERENCE)
        same(reference(client, "programIndex - 1", 1), found[0])
        client.end()


def where_lanes_are_threads(client, width):
    """Values open where each lane is a thread too."""
    with written(RECURSION) as source:
        client.launch(source, width=width, laneThreads=True)
        client.begin()
        client.breakpoints(8)
        client.move("continue")
        same(lanes_of(client, reference(client, "k - 5", 2)), shown(lane % 2 - 5 for lane in range(width)))
        client.end()


CHILD_CHECKS = [
    check
    for it in (lanes_in_each_frame, lanes_of_each_type, lanes_that_wait, pages_of_lanes, values_as_they_are, each_text_once, held_to_the_next_stop, at_the_end, as_many_as_there_can_be, where_lanes_are_threads)
    for check in at_widths(it)
]
