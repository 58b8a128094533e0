"""Checks of the debug adapter: breakpoints with conditions and counts, on and back, and behind a restart.

The program runs a loop of 50 rounds. Where line 9 stands, `x` of a lane is the round times the lane's number, less 20; where line 10 does,
`total` is twice the round and 2 more. So each stop is worked out here by arithmetic.
"""

from .adapter_frames import NO_NAME, written
from .adapter_members import need, same
from .adapter_refusals import NO_HISTORY

WIDTHS = (4, 16)
ROUNDS = 50
SOURCE = """uniform int total = 0;
bool is_odd(int k) { return k % 2 == 1;
}
export void go() {
    int x = 0;
    uniform int i = 0;
    while (i < 50) {
        x = i * programIndex - 20;
        total += 2;
        bool odd = is_odd(x);
        uniform int64 y = i * 3;
        i += 1;
    }
    total = -7;
}
"""
# The first statement's line, that where `x` is that of the round, that where `total` is, and that where `odd` is too.
START, X, TOTAL, ODD, NEXT = 5, 9, 10, 11, 12


def ask(client, *entries):
    """What is told of the breakpoints, each by its line and what else it asks for."""
    asked = [{"line": line, **more} for line, more in entries]
    return client.ask("setBreakpoints", source={"path": client.source}, breakpoints=asked)["breakpoints"]


def launched(client, path, *entries, **more):
    client.launch(path, history=65536, **more)
    made = ask(client, *entries)
    need(all(it["verified"] for it in made), f"not verified: {made}")
    return [it["id"] for it in made]


def hit(client, stop, number, line, rounds):
    """A stop is at the breakpoint of this number, on its line, in this round."""
    same((stop["reason"], stop.get("hitBreakpointIds"), client.place()[0][0], client.value("i")), ("breakpoint", [number], line, str(rounds)))


def ended(client, stop):
    same((stop["text"], [name for *_, name in client.place()]), ("ended", ["go (ended)"]))


def rounds_where(holds, width):
    """The rounds in which a condition holds in a lane."""
    return [i for i in range(ROUNDS) if any(holds(i, lane) for lane in range(width))]


def in_some_lane(client, examples):
    """A condition holds where it is not 0 in some active lane: on through each such round, and back through them."""
    with written(SOURCE) as path:
        for width in WIDTHS:
            [number] = launched(client, path, (X, {"condition": "x > 85 && x < 100"}), width=width, stopOnEntry=False)
            found = rounds_where(lambda i, lane: 85 < i * lane - 20 < 100, width)
            need(2 < len(found) < 40, f"the rounds {found}")
            hit(client, client.begin(), number, X, found[0])
            for i in found[1:]:
                hit(client, client.move("continue"), number, X, i)
            ended(client, client.move("continue"))
            for i in reversed(found):
                hit(client, client.move("reverseContinue"), number, X, i)
            same(client.move("reverseContinue")["text"].split(":")[0], "history end")
            client.again()
        client.end()


def of_negatives_and_bools(client, examples):
    """Negative values and bools are judged by their types, and a number that is not 0 holds, a negative one too."""
    with written(SOURCE) as path:
        for width in WIDTHS:
            [number] = launched(client, path, (X, {"condition": "x == -20 + 3 * 7"}), width=width, stopOnEntry=False)
            found = rounds_where(lambda i, lane: i * lane == 21, width)
            hit(client, client.begin(), number, X, found[0])
            # The lane 0 is -20 always, so that the number x stops in each round.
            [number] = [it["id"] for it in ask(client, (X, {"condition": "x"}))]
            hit(client, client.move("continue"), number, X, found[0] + 1)
            # A bool: the lane 1 is odd where the round is.
            [number] = [it["id"] for it in ask(client, (ODD, {"condition": "odd && programIndex == 1 && i > 40"}))]
            for i in [i for i in range(41, ROUNDS) if i % 2 == 1]:
                hit(client, client.move("continue"), number, ODD, i)
            ended(client, client.move("continue"))
            client.again()
        client.end()


def two_conditions(client, examples):
    """Each line has its own condition, and one behind an entry that is refused has its own too; a list takes the place of the one before."""
    with written(SOURCE) as path:
        client.launch(path, stopOnEntry=False)
        made = ask(client, (X, {"condition": "i == 11"}), (X, {"logMessage": 1}), (ODD, {"condition": "total == 10"}), (200, {}), (NEXT, {"condition": "i % 20 == 19"}))
        same([it["verified"] for it in made], [True, False, True, False, True])
        one, two, three = [it["id"] for it in made if it["verified"]]
        # Where the line with the sum behind it stands, total is 2 i + 2.
        hit(client, client.begin(), two, ODD, 4)
        hit(client, client.move("continue"), one, X, 11)
        hit(client, client.move("continue"), three, NEXT, 19)
        hit(client, client.move("reverseContinue"), one, X, 11)
        hit(client, client.move("reverseContinue"), two, ODD, 4)
        # The line of the first condition is asked for alone, without one.
        [plain] = [it["id"] for it in ask(client, (X, {}))]
        hit(client, client.move("continue"), plain, X, 5)
        hit(client, client.move("continue"), plain, X, 6)
        client.end()


def on_one_line(client, examples):
    """Two breakpoints that move to one line have each its own condition."""
    text = "export void go() {\n    uniform int i = 0;\n    while (i < 30) {\n\n        i += 1;\n    }\n}\n"
    with written(text) as path:
        client.launch(path, stopOnEntry=False)
        made = ask(client, (4, {"condition": "i == 7"}), (5, {"condition": "i == 21"}))
        same([it["line"] for it in made], [5, 5])
        for i in (7, 21):
            stop = client.begin() if i == 7 else client.move("continue")
            same((stop["reason"], client.place()[0][0], client.value("i")), ("breakpoint", 5, str(i)))
        ended(client, client.move("continue"))
        client.end()


def counts(client, examples):
    """At the K-th stop and from then on; with a condition those count where it holds."""
    with written(SOURCE) as path:
        for width in WIDTHS:
            [number] = launched(client, path, (X, {"hitCondition": "5"}), width=width, stopOnEntry=False)
            hit(client, client.begin(), number, X, 4)
            hit(client, client.move("continue"), number, X, 5)
            # Rounds 3 and 13 are passed for the count, all others before 23 by the condition.
            client.again()
            [number] = launched(client, path, (X, {"condition": "i % 10 == 3", "hitCondition": "3"}), width=width)
            client.begin()
            hit(client, client.move("continue"), number, X, 23)
            hit(client, client.move("continue"), number, X, 33)
            hit(client, client.move("reverseContinue"), number, X, 23)
            hit(client, client.move("reverseContinue"), number, X, 13)
            # The same list once more counts anew, from where the program stands: 23, 33, 43.
            [number] = [it["id"] for it in ask(client, (X, {"condition": "i % 10 == 3", "hitCondition": "3"}))]
            hit(client, client.move("continue"), number, X, 43)
            # The first time is each time.
            [number] = [it["id"] for it in ask(client, (X, {"hitCondition": "1"}))]
            hit(client, client.move("continue"), number, X, 44)
            # An empty condition, an empty count and an empty message are none.
            [number] = [it["id"] for it in ask(client, (X, {"condition": "", "hitCondition": "", "logMessage": ""}))]
            hit(client, client.move("continue"), number, X, 45)
            client.again()
        client.end()


def without_value(client, examples):
    """A condition that has no value stops, and the console is told why."""
    with written(SOURCE) as path:
        # 100 / (i - 7) faults in round 7 alone; before, the quotient is less than 0.
        [number] = launched(client, path, (ODD, {"condition": "100 / (i - 7) > 1000", "hitCondition": "40"}), stopOnEntry=False)
        client.ask("configurationDone")
        same(client.event("output")["output"], "the condition has no value: F1 DivideByZero in lane 0: the expression has no value\n")
        hit(client, client.event("stopped"), number, ODD, 7)
        [number] = [it["id"] for it in ask(client, (NEXT, {"condition": "none > 3"}))]
        client.ask("continue", threadId=1)
        same(client.event("output")["output"], f"the condition has no value: {NO_NAME}\n")
        hit(client, client.event("stopped"), number, NEXT, 7)
        client.ask("reverseContinue", threadId=1)
        same(client.event("output")["output"], f"the condition has no value: {NO_NAME}\n")
        hit(client, client.event("stopped"), number, NEXT, 6)
        client.end()


def in_a_call(client, examples):
    """A condition is judged in the frame that stops."""
    with written(SOURCE) as path:
        [number] = launched(client, path, (2, {"condition": "k == 13"}), stopOnEntry=False)
        for i in rounds_where(lambda i, lane: i * lane == 33, 4):
            stop = client.begin() if i == 11 else client.move("continue")
            same((stop["hitBreakpointIds"], [it[0] for it in client.place()], client.value("i", 1)), ([number], [2, TOTAL], str(i)))
        client.end()


def at_the_start(client, examples):
    """A breakpoint on the first statement stops a run only where its condition holds there, and at its count."""
    with written(SOURCE) as path:
        [number] = launched(client, path, (START, {"condition": "total == 0"}), stopOnEntry=False)
        stop = client.begin()
        same((stop["reason"], stop["hitBreakpointIds"], client.place()[0][0]), ("breakpoint", [number], START))
        same(client.refused_move("stepBack", NO_HISTORY)["hitBreakpointIds"], [number])
        client.again()
        first, second = launched(client, path, (START, {"condition": "total == 1"}), (X, {"condition": "i == 2"}), stopOnEntry=False)
        hit(client, client.begin(), second, X, 2)
        client.again()
        first, second = launched(client, path, (START, {"hitCondition": "2"}), (X, {"condition": "i == 2"}), stopOnEntry=False)
        hit(client, client.begin(), second, X, 2)
        client.end()


def without_value_at_the_start(client, examples):
    """A condition that has no value on the first statement stops there too, and the console is told why before it, where a run begins and begins anew."""
    with written(SOURCE) as path:
        for condition, why in (("1 / total > 0", "F1 DivideByZero in lane 0: the expression has no value"), ("odd", NO_NAME)):
            [number] = launched(client, path, (START, {"condition": condition}), stopOnEntry=False)
            for again in ("configurationDone", "restart"):
                client.ask(again)
                same(client.event("output")["output"], f"the condition has no value: {why}\n")
                stop = client.event("stopped")
                same((stop["reason"], stop["hitBreakpointIds"], client.place()), ("breakpoint", [number], [(START, 5, "go [1111]")]))
            client.again()
        client.ask("initialize", adapterID="rinddecade")
        client.end()


def restarts(client, examples):
    """A restart keeps the conditions and the numbers, and the counts begin anew."""
    with written(SOURCE) as path:
        launched(client, path, (X, {}), (ODD, {}), stopOnEntry=False)
        made = ask(client, (X, {"condition": "i == 31"}), (ODD, {"condition": "i > 9", "hitCondition": "6"}))
        same([it["id"] for it in made], [3, 4])
        hit(client, client.begin(), 4, ODD, 15)
        hit(client, client.move("continue"), 4, ODD, 16)
        client.ask("restart")
        hit(client, client.event("stopped"), 4, ODD, 15)
        ask(client, (X, {"condition": "i == 31"}))
        hit(client, client.move("continue"), 5, X, 31)
        client.ask("restart")
        hit(client, client.event("stopped"), 5, X, 31)
        client.end()


def steps(client, examples):
    """A single step stops where it leads, whatever a condition says."""
    with written(SOURCE) as path:
        launched(client, path, (TOTAL, {"condition": "i == 40"}))
        client.begin()
        for line in range(START + 1, ODD + 1):
            client.move("next")
            same(client.place()[0][0], line)
        client.end()


def in_the_console(client, examples):
    """`continue` and `reverse-continue` in the console heed conditions too."""
    with written(SOURCE) as path:
        [number] = launched(client, path, (X, {"condition": "i % 12 == 5"}))
        client.begin()
        for line, i in [("continue", 5), ("c", 17), ("reverse-continue", 5)]:
            client.ask("evaluate", expression=line, context="repl")
            hit(client, client.event("stopped"), number, X, i)
        client.end()


# Conditions that are no expressions, whatever names there are, and that are some: which names a frame has is known at the stop.
NO_EXPRESSIONS = ("x >", "x = 3", ")", "if", "x x", "i++", "x[", "3 +", "'a'", "\"x\"", "x ? 1", "$", "08x", "x;", "// x", " ")
SOME_EXPRESSIONS = ("x > 3", "nowhere == 1", "go()", "x[2] > 3", "(i)", "true", "total % 2 == 0 && !odd", "-1", "0x1f < i", "x + nothing")


def no_expressions(client, examples):
    """A condition that is no expression is refused as it is asked for, and the others are set; one with a name that is not there is set too."""
    with written(SOURCE) as path:
        client.launch(path)
        client.begin()
        conditions = [*NO_EXPRESSIONS, *SOME_EXPRESSIONS]
        stands = [condition in SOME_EXPRESSIONS for condition in conditions]
        made = ask(client, *((X, {"condition": condition}) for condition in conditions), (ODD, {}))
        same([it["verified"] for it in made], [*stands, True])
        need(all(it["message"] for it in made if not it["verified"]), "a refusal has no text")
        entries = [{"name": "is_odd", "condition": condition} for condition in conditions]
        same([it["verified"] for it in client.ask("setFunctionBreakpoints", breakpoints=entries)["breakpoints"]], stands)
        entries = [{"dataId": "total", "condition": condition} for condition in conditions]
        same([it["verified"] for it in client.ask("setDataBreakpoints", breakpoints=entries)["breakpoints"]], stands)
        client.ask("setFunctionBreakpoints", breakpoints=[])
        client.ask("setDataBreakpoints", breakpoints=[])
        # What is refused stops nowhere, and takes the place of what stood there.
        [refused, made] = ask(client, (X, {"condition": "i =="}), (TOTAL, {"condition": "i == 3"}))
        same((refused["verified"], made["verified"]), (False, True))
        hit(client, client.move("continue"), made["id"], TOTAL, 3)
        ended(client, client.move("continue"))
        client.end()


CONDITION_CHECKS = [
    no_expressions,
    in_some_lane, of_negatives_and_bools, two_conditions, on_one_line, counts, without_value, in_a_call, at_the_start, without_value_at_the_start, restarts, steps, in_the_console,
]
