"""Checks of the debug adapter: breakpoints of functions, and watches with conditions and counts, beside breakpoints of lines and behind a restart.

The program runs a loop of 20 rounds. In the round i the function `twice` is given i times the lane's number, less 7, as `k`; behind the sum of
the round `total` is three times the rounds that were done. So each stop is worked out here by arithmetic.
"""

from .adapter_conditions import ask, ended
from .adapter_frames import written
from .adapter_members import need, same

WIDTHS = (4, 8, 16)
ROUNDS = 20
SOURCE = """uniform int total = 0; // twice() and go() are below
int16 twice(int16 k) {
    int16 r = k + k;
    return r;
}
void nothing(uniform int8 n) {
}
export void go() {
    uniform int i = 0;
    while (i < 20) {
        int16 x = twice((int16)(i * programIndex - 7));
        total += 3;
        nothing(-1);
        i += 1;
    }
}
"""
# The first lines of the functions, the line of the sum, and the one behind it.
TWICE, NOTHING, GO, SUM, BEHIND = 3, 7, 9, 12, 13
NO_FUNCTION = "no function of this name"
UNPLACED = "its line is no number from 1 to 4294967295, or its name or target is no text"
NO_MESSAGE = "only a breakpoint of a line has a log message"


def functions(client, *asked):
    """What is told of the breakpoints of functions, each by its name or by all that it asks for."""
    entries = [{"name": it} if isinstance(it, str) else it for it in asked]
    return client.ask("setFunctionBreakpoints", breakpoints=entries)["breakpoints"]


def watch(client, **more):
    """The number of a watch of the sum."""
    [made] = client.ask("setDataBreakpoints", breakpoints=[{"dataId": "total", **more}])["breakpoints"]
    need(made["verified"], f"not verified: {made}")
    return made["id"]


def listed(client):
    """How many breakpoints and watches there are."""
    text = client.ask("evaluate", expression="info breakpoints", context="repl")["result"]
    return 0 if text == "none" else len(text.splitlines())


def hit(client, stop, number, line, rounds):
    """A stop is at the breakpoint of a function of this number, on its line, in this round of the caller."""
    same((stop["reason"], stop.get("hitBreakpointIds"), client.place()[0][0], client.value("i", 1)), ("breakpoint", [number], line, str(rounds)))


def changed(client, stop, number, rounds):
    """A stop is at the watch of this number, behind the sum of this round."""
    same((stop["reason"], stop.get("hitBreakpointIds")), ("data breakpoint", [number]))
    same((client.place()[0][0], client.value("i"), client.value("total")), (BEHIND, str(rounds), str(3 * rounds + 3)))


def on_their_first_lines(client, examples):
    """A breakpoint stands on the first line of its function that has a step, or its closing brace; on through the rounds, and back."""
    with written(SOURCE) as path:
        for width in WIDTHS:
            client.launch(path, width=width, stopOnEntry=False)
            made = functions(client, "twice", "nothing", "go")
            same([it["line"] for it in made], [TWICE, NOTHING, GO])
            twice, nothing, go = [it["id"] for it in made]
            stop = client.begin()
            same((stop["hitBreakpointIds"], client.place()[0][0]), ([go], GO))
            for i in range(ROUNDS):
                hit(client, client.move("continue"), twice, TWICE, i)
                hit(client, client.move("continue"), nothing, NOTHING, i)
            hit(client, client.move("reverseContinue"), twice, TWICE, ROUNDS - 1)
            hit(client, client.move("reverseContinue"), nothing, NOTHING, ROUNDS - 2)
            client.again()
        client.end()


def refused_names(client, examples):
    """Each entry that cannot be set is refused for itself, with its reason; those behind it have their own terms."""
    with written(SOURCE) as path:
        client.launch(path, stopOnEntry=False)
        made = functions(
            client, "none", {"name": 7}, {}, {"name": "twice", "condition": 1}, {"name": "twice", "hitCondition": "0"}, {"name": "twice", "logMessage": "x"},
            "total", "twic", "", {"name": "nothing", "condition": "n == -1 && total == 12"}, {"name": "twice", "condition": "k == 3"},
        )
        same([it.get("message") for it in made], [
            NO_FUNCTION, UNPLACED, UNPLACED, "its condition is no text of at most 256 bytes", "its count is none of `N`, `>= N` and `> N`, with a first stop from 1 to 10000000", NO_MESSAGE,
            NO_FUNCTION, NO_FUNCTION, NO_FUNCTION, None, None,
        ])
        same(listed(client), 2)
        # 12 is there behind the fourth round, and 10 = i * lane in the rounds 5 and 10.
        nothing, twice = [it["id"] for it in made if it["verified"]]
        hit(client, client.begin(), nothing, NOTHING, 3)
        hit(client, client.move("continue"), twice, TWICE, 5)
        hit(client, client.move("continue"), twice, TWICE, 10)
        ended(client, client.move("continue"))
        client.end()


def their_terms(client, examples):
    """A condition is judged among the variables of the function, a negative value too; and a count lets the K-th stop count."""
    with written(SOURCE) as path:
        for width in WIDTHS:
            found = [i for i in range(ROUNDS) if any(i * lane - 7 == -2 for lane in range(width))]
            client.launch(path, width=width, stopOnEntry=False)
            [made] = functions(client, {"name": "twice", "condition": "k == -2"})
            hit(client, client.begin(), made["id"], TWICE, found[0])
            for i in found[1:]:
                hit(client, client.move("continue"), made["id"], TWICE, i)
            ended(client, client.move("continue"))
            hit(client, client.move("reverseContinue"), made["id"], TWICE, found[-1])
            client.again()
            client.launch(path, width=width, stopOnEntry=False)
            [made] = functions(client, {"name": "nothing", "condition": "total % 2 == 0", "hitCondition": "3"})
            # `total` is even behind the rounds 1, 3 and 5, and stops from the third of them on.
            hit(client, client.begin(), made["id"], NOTHING, 5)
            hit(client, client.move("continue"), made["id"], NOTHING, 7)
            client.again()
        client.end()


def beside_others(client, examples):
    """Those of lines, of functions and watches go alone, and each keeps its condition where others are set."""
    with written(SOURCE) as path:
        client.launch(path, stopOnEntry=False)
        [line] = [it["id"] for it in ask(client, (SUM, {"condition": "i == 9"}))]
        [function] = [it["id"] for it in functions(client, {"name": "twice", "condition": "k == 8"})]
        number = watch(client, condition="total == 9")
        same(len({line, function, number}), 3)
        # Lines are set anew, then functions, then watches: the others stay.
        [line] = [it["id"] for it in ask(client, (SUM, {"condition": "i == 4"}))]
        same(listed(client), 3)
        changed(client, client.begin(), number, 2)
        stop = client.move("continue")
        same((stop["hitBreakpointIds"], client.value("i")), ([line], "4"))
        # 15 = i * lane in the rounds 5 and 15.
        hit(client, client.move("continue"), function, TWICE, 5)
        [function] = [it["id"] for it in functions(client, {"name": "nothing", "condition": "total == 30"})]
        same(listed(client), 3)
        number = watch(client, condition="total == 36")
        same(listed(client), 3)
        hit(client, client.move("continue"), function, NOTHING, 9)
        changed(client, client.move("continue"), number, 11)
        stop = client.move("reverseContinue")
        hit(client, stop, function, NOTHING, 9)
        stop = client.move("reverseContinue")
        same((stop["hitBreakpointIds"], client.value("i")), ([line], "4"))
        # Another source has no breakpoints, and changes none.
        client.ask("setBreakpoints", source={"path": "/another.ispc"}, breakpoints=[])
        same(listed(client), 3)
        same(functions(client), [])
        same(listed(client), 2)
        ask(client)
        same(listed(client), 1)
        changed(client, client.move("continue"), number, 11)
        client.end()


def counts_go_on(client, examples):
    """What a run has left of the counts of others stays where functions are set."""
    with written(SOURCE) as path:
        client.launch(path, stopOnEntry=False)
        [line, first] = [it["id"] for it in ask(client, (SUM, {"hitCondition": "5"}), (BEHIND, {"condition": "i == 1"}))]
        stop = client.begin()
        same((stop["hitBreakpointIds"], client.value("i")), ([first], "1"))
        # Two of four stops are passed.
        functions(client, {"name": "nothing", "condition": "false"})
        stop = client.move("continue")
        same((stop["hitBreakpointIds"], client.value("i")), ([line], "4"))
        client.end()


def of_watches(client, examples):
    """A watch stops where its condition holds, and from its K-th stop on; one that is to write a message is refused."""
    with written(SOURCE) as path:
        for width in WIDTHS:
            client.launch(path, width=width, stopOnEntry=False)
            number = watch(client, hitCondition="4")
            changed(client, client.begin(), number, 3)
            changed(client, client.move("continue"), number, 4)
            number = watch(client, condition="total > 20 && total % 2 == 0")
            for i in (7, 9):
                changed(client, client.move("continue"), number, i)
            number = watch(client, condition="x < -7", hitCondition="2")
            # x is twice k, and so -14 in lane 0 always: each stop counts, and the first is passed.
            changed(client, client.move("continue"), number, 11)
            refused = client.ask("setDataBreakpoints", breakpoints=[{"dataId": "total", "logMessage": "x"}, {"dataId": "x"}])["breakpoints"]
            same([it["verified"] for it in refused], [False, False])
            same(refused[0]["message"], NO_MESSAGE)
            same(listed(client), 0)
            client.again()
        client.end()


def restarts(client, examples):
    """A restart keeps them with their terms and their numbers, and still tells them from those of lines."""
    with written(SOURCE) as path:
        client.launch(path, stopOnEntry=False)
        ask(client, (SUM, {}))
        [line] = [it["id"] for it in ask(client, (SUM, {"condition": "i == 12"}))]
        [function] = [it["id"] for it in functions(client, {"name": "twice", "hitCondition": "3"})]
        number = watch(client, condition="total == 12")
        same((line, function, number), (2, 3, 4))
        hit(client, client.begin(), function, TWICE, 2)
        client.ask("restart")
        # Their numbers are the same, and the count begins anew.
        hit(client, client.event("stopped"), function, TWICE, 2)
        hit(client, client.move("continue"), function, TWICE, 3)
        changed(client, client.move("continue"), number, 3)
        same(functions(client), [])
        same(listed(client), 2)
        stop = client.move("continue")
        same((stop["hitBreakpointIds"], client.value("i")), ([line], "12"))
        client.end()


def move_with_their_functions(client, examples):
    """A restart sets each where its function stands in the text of then, with its terms; where that is gone none is set, and the others keep theirs."""
    with written(SOURCE) as path:
        client.launch(path, stopOnEntry=False)
        # The sum is 27 before that of the round 9, and 0 where the run begins, on this line of the second text.
        [line] = [it["id"] for it in ask(client, (SUM, {"condition": "total == 27"}))]
        # 10 = i * lane first in the round 5, of lane 2.
        made = functions(client, {"name": "twice", "condition": "k == 3"}, {"name": "nothing", "hitCondition": "4"})
        same((line, [it["id"] for it in made]), (1, [2, 3]))
        hit(client, client.begin(), 3, NOTHING, 3)
        # Three lines further down.
        path.write_text("\n\n\n" + SOURCE)
        client.ask("restart")
        hit(client, client.event("stopped"), 3, NOTHING + 3, 3)
        hit(client, client.move("continue"), 3, NOTHING + 3, 4)
        hit(client, client.move("continue"), 2, TWICE + 3, 5)
        same(listed(client), 3)
        # Of another name: the other's number and its count are its own.
        path.write_text(SOURCE.replace("twice", "doubled"))
        client.ask("restart")
        hit(client, client.event("stopped"), 3, NOTHING, 3)
        same(listed(client), 2)
        # The breakpoint of the line has kept its line and its condition.
        for i in range(4, 9):
            hit(client, client.move("continue"), 3, NOTHING, i)
        stop = client.move("continue")
        same((stop["hitBreakpointIds"], client.place()[0][0], client.value("i")), ([1], SUM, "9"))
        # One that has gone does not come back by itself.
        path.write_text(SOURCE)
        client.ask("restart")
        hit(client, client.event("stopped"), 3, NOTHING, 3)
        same([it["line"] for it in functions(client, "twice")], [TWICE])
        same(listed(client), 2)
        client.end()


FUNCTION_CHECKS = [on_their_first_lines, refused_names, their_terms, beside_others, counts_go_on, of_watches, restarts, move_with_their_functions]
