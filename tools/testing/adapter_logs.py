"""Checks of the debug adapter: breakpoints that write a text in place of stopping, on and back, and behind a restart.

The program runs a loop of so many rounds. Where line 7 stands, `x` of a lane is the round times the lane's number, and `total` the sum of the
rounds before. So each text is worked out here by arithmetic.
"""

from .adapter_conditions import ask, ended, launched
from .adapter_frames import NO_NAME, written
from .adapter_members import need, same

WIDTHS = (4, 16)
ROUNDS = 5
SOURCE = """uniform int total = 0;
export void go() {
    int x = 0;
    uniform int i = 0;
    while (i < ROUNDS) {
        x = i * programIndex;
        total += i;
        i += 1;
    }
    total = -7;
}
"""
# The first statement's line, that where `x` is that of the round, that where `total` is too, and the one behind the loop.
START, X, TOTAL, BEHIND = 3, 7, 8, 10
MESSAGE = "i is {i}, x {x}: {total}"


def of_rounds(rounds):
    return written(SOURCE.replace("ROUNDS", str(rounds)))


def text_of(i, width):
    """What MESSAGE comes to on the line X in a round."""
    return f"i is {i}, x {' '.join(str(i * lane) for lane in range(width))}: {i * (i - 1) // 2}"


def writes(client, *texts):
    """Each text is a line of the console, in this order."""
    for text in texts:
        same(client.event("output")["output"], text + "\n")


def begins(client, *texts):
    client.ask("configurationDone")
    writes(client, *texts)
    return client.event("stopped")


def moves(client, command, *texts):
    client.ask(command, threadId=1)
    writes(client, *texts)
    return client.event("stopped")


def at(client, stop, number, line, i):
    same((stop["reason"], stop.get("hitBreakpointIds"), client.place()[0][0], client.value("i")), ("breakpoint", [number], line, str(i)))


def each_round(client, examples):
    """A text in each round, in place of a stop: on to the end, and back in the other order."""
    with of_rounds(ROUNDS) as path:
        for width in WIDTHS:
            launched(client, path, (X, {"logMessage": MESSAGE}), width=width, stopOnEntry=False)
            texts = [text_of(i, width) for i in range(ROUNDS)]
            ended(client, begins(client, *texts))
            same(moves(client, "reverseContinue", *reversed(texts))["text"].split(":")[0], "history end")
            ended(client, moves(client, "continue", *texts))
            client.again()
        client.end()


def from_the_entry(client, examples):
    """A stop on entry writes nothing, and the rounds behind it do."""
    with of_rounds(ROUNDS) as path:
        launched(client, path, (START, {"logMessage": "first"}), (X, {"logMessage": "{i}"}))
        same(begins(client)["reason"], "entry")
        ended(client, moves(client, "continue", *map(str, range(ROUNDS))))
        client.end()


def on_the_first_line(client, examples):
    """A run that is not to stop on entry writes the text of its first line, and goes on; a breakpoint beside it stops behind that text."""
    with of_rounds(ROUNDS) as path:
        launched(client, path, (START, {"logMessage": "total {total}"}), stopOnEntry=False)
        ended(client, begins(client, "total 0"))
        client.again()
        # The numbers are those of the entries, in their order.
        launched(client, path, (START, {"logMessage": "here"}), (START, {}), (X, {"logMessage": "{i}", "condition": "i == 4"}), stopOnEntry=False)
        stop = begins(client, "here")
        same((stop["reason"], stop["hitBreakpointIds"], client.place()[0][0]), ("breakpoint", [2], START))
        ended(client, moves(client, "continue", "4"))
        client.end()


def on_conditions(client, examples):
    """A text where the condition holds in some lane, where it has no value, and from the K-th time on where there is a count."""
    with of_rounds(ROUNDS) as path:
        for width in WIDTHS:
            found = [i for i in range(ROUNDS) if any(5 < i * lane < 9 for lane in range(width))]
            need(0 < len(found) < ROUNDS, f"the rounds {found}")
            launched(client, path, (X, {"logMessage": MESSAGE, "condition": "x > 5 && x < 9"}), width=width, stopOnEntry=False)
            ended(client, begins(client, *(text_of(i, width) for i in found)))
            client.again()
        launched(client, path, (X, {"logMessage": "{i}", "hitCondition": "3"}), (TOTAL, {"logMessage": "odd {i}", "condition": "i % 2", "hitCondition": "2"}), stopOnEntry=False)
        ended(client, begins(client, "2", "3", "odd 3", "4"))
        # On the way back none is left to be passed.
        same(moves(client, "reverseContinue", "4", "odd 3", "3", "2", "odd 1", "1", "0")["text"].split(":")[0], "history end")
        client.again()
        launched(client, path, (X, {"logMessage": "{i}", "condition": "10 / (i - 2) > 9"}), stopOnEntry=False)
        # In the round 2 it has no value, and 10 in the round 3.
        ended(client, begins(client, "2", "3"))
        client.end()


def beside_stops(client, examples):
    """Two texts on one line in the order of their entries, before a stop there; what stops has its own condition."""
    with of_rounds(ROUNDS) as path:
        launched(client, path, (X, {"logMessage": "one {i}"}), (X, {"condition": "i % 3 == 1"}), (X, {"logMessage": "two {total}"}), (BEHIND, {}), stopOnEntry=False)
        lines = [[f"one {i}", f"two {i * (i - 1) // 2}"] for i in range(ROUNDS)]
        at(client, begins(client, *lines[0], *lines[1]), 2, X, 1)
        at(client, moves(client, "continue", *lines[2], *lines[3], *lines[4]), 2, X, 4)
        at(client, moves(client, "continue"), 4, BEHIND, 5)
        at(client, moves(client, "reverseContinue", *lines[4]), 2, X, 4)
        at(client, moves(client, "reverseContinue", *lines[3], *lines[2], *lines[1]), 2, X, 1)
        # Another list takes the place of this one.
        [plain] = [it["id"] for it in ask(client, (X, {}))]
        at(client, moves(client, "continue"), plain, X, 2)
        ask(client)
        ended(client, moves(client, "continue"))
        client.end()


def of_braces(client, examples):
    """Each expression in braces has its value, or in brackets why it has none; a brace that is not closed is shown. A command is not done."""
    with of_rounds(1) as path:
        [number] = launched(client, path, (X, {}), stopOnEntry=False)
        at(client, client.begin(), number, X, 0)
        refused = {text: client.refused("evaluate", expression=text, context="watch") for text in ("{i", "x +", "", "set var total = 9", "1 / i")}
        same(refused["1 / i"], "F1 DivideByZero in lane 0: the expression has no value")
        cases = [
            ("plain", "plain"), ("{i}{i + 1}", "01"), ("a } b {i}", "a } b 0"), ("{i} {i", "0 {i"), ("{{i}}", f"({refused['{i']})}}"), ("{x +}", f"({refused['x +']})"),
            ("{}", f"({refused['']})"), ("{1 / i}!", f"({refused['1 / i']})!"), ("{none}", f"({NO_NAME})"), ("{set var total = 9}{total}", f"({refused['set var total = 9']})0"),
            ("\u00e9 {x} {reduce_add(x + 2)} \U0001d11e", "\u00e9 0 0 0 0 8 \U0001d11e"), ("x" * 256, "x" * 256),
        ]
        client.move("reverseContinue")
        ask(client, *((X, {"logMessage": message}) for message, _ in cases))
        ended(client, moves(client, "continue", *(text for _, text in cases)))
        same(client.value("total"), "-7")
        client.end()


def restarts(client, examples):
    """A restart keeps the texts and the numbers, and their counts begin anew."""
    with of_rounds(ROUNDS) as path:
        launched(client, path, (TOTAL, {}), (X, {}), stopOnEntry=False)
        made = ask(client, (TOTAL, {"condition": "i == 3"}), (X, {"logMessage": "{i}", "hitCondition": "2"}), (X, {"logMessage": "also {i}"}))
        same([it["id"] for it in made[:2]], [3, 4])
        texts = ["also 0", "1", "also 1", "2", "also 2", "3", "also 3"]
        at(client, begins(client, *texts), 3, TOTAL, 3)
        client.ask("restart")
        writes(client, *texts)
        at(client, client.event("stopped"), 3, TOTAL, 3)
        client.end()


def that_are_none(client, examples):
    """A message of a wrong type, or too long a one, is refused for itself; an empty one or `null` is none, and its breakpoint stops."""
    with of_rounds(ROUNDS) as path:
        client.launch(path, stopOnEntry=False)
        made = ask(client, (X, {"logMessage": 1}), (X, {"logMessage": "x" * 257}), (X, {"logMessage": ["x"]}), (TOTAL, {"logMessage": ""}), (BEHIND, {"logMessage": None}))
        same([it.get("message") for it in made], ["its log message is no text of at most 256 bytes"] * 3 + [None] * 2)
        at(client, begins(client), made[3]["id"], TOTAL, 0)
        ask(client, (BEHIND, {"logMessage": None}))
        same(moves(client, "continue")["reason"], "breakpoint")
        client.end()


def too_many(client, examples):
    """Of 1,001 texts of a move 1,000 are written, and it is told that one is left out; on the way back too."""
    with of_rounds(1001) as path:
        client.launch(path, history=65536, stopOnEntry=False)
        ask(client, (X, {"logMessage": "{i}"}))
        left_out = "texts of log points are left out"
        ended(client, begins(client, *map(str, range(1000)), left_out))
        same(moves(client, "reverseContinue", *map(str, range(1000, 0, -1)), left_out)["text"].split(":")[0], "history end")
        ask(client, (X, {"logMessage": "{i}", "condition": "i < 1000"}))
        ended(client, moves(client, "continue", *map(str, range(1000))))
        client.end()


def in_the_console(client, examples):
    """`continue` and `reverse-continue` in the console write texts too."""
    with of_rounds(ROUNDS) as path:
        launched(client, path, (X, {"logMessage": "{i}"}))
        client.begin()
        for line, rounds in (("continue", range(ROUNDS)), ("reverse-continue", reversed(range(ROUNDS))), ("c", range(ROUNDS))):
            client.ask("evaluate", expression=line, context="repl")
            writes(client, *map(str, rounds))
            client.event("stopped")
        client.end()


def steps(client, examples):
    """A step writes nothing, and one over a call stops at a breakpoint in it, whether it has a message or not."""
    text = "int twice(int k) {\n    return 2 * k;\n}\nexport void go() {\n    int x = 1;\n    x = twice(x);\n    x += 1;\n}\n"
    with written(text) as path:
        [number] = launched(client, path, (2, {"logMessage": "k is {k}"}))
        client.begin()
        client.move("next")
        stop = moves(client, "next")
        same((stop["reason"], stop["hitBreakpointIds"], [it[0] for it in client.place()]), ("breakpoint", [number], [2, 6]))
        client.move("stepOut")
        ended(client, moves(client, "continue"))
        same(moves(client, "reverseContinue", "k is 1 1 1 1")["text"].split(":")[0], "history end")
        client.end()


LOG_CHECKS = [
    each_round, from_the_entry, on_the_first_line, on_conditions, beside_stops, of_braces, restarts, that_are_none, too_many, in_the_console, steps,
]
