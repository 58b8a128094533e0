"""Checks of the debug adapter: lines of the console in the words of the prompt.

A session is had twice, by the debugger's own lines and by those words: each line must come to the same.
"""

from .adapter_conditions import SOURCE, X, hit, launched
from .adapter_frames import RECURSION, at_depth_3, written
from .adapter_members import need, same
from .adapter_targets import UNKNOWN, at_widths

# Lines that are typed one after another, each with the debugger's own.
MOVES = [
    ("cont", "continue"), ("where", "backtrace"), ("rsi", "reverse-step"), ("reverse-stepi 2", "reverse-step 2"), ("si 2", "step 2"), ("ste", "step"),
    ("rni", "reverse-next"), ("ni", "next"), ("u", "next"), ("until", "next"), ("fin", "finish"), ("reverse-fin", "reverse-finish"), ("con", "continue"),
    ("nex 9", "next 9"), ("fg", "continue"), ("reverse-cont", "reverse-continue"), ("  s", "step"),
]
STOPS = [
    ("br 12", "break 12"), ("brea 14", "break 14"), ("wat total", "watch total"), ("i b", "info breakpoints"), ("info break", "info breakpoints"),
    ("set total = 9", "set var total = 9"), ("set variable table[1] = true", "set var table[1] = true"), ("set nothing = 9", "set var nothing = 9"),
    ("wat nothing", "watch nothing"), ("d 99", "delete 99"), ("d 2", "delete 2"), ("i b", "info breakpoints"), ("del 3", "delete 3"),
    ("inf b", "info breakpoints"), ("d", "delete"), ("i breakpoints", "info breakpoints"),
    ("set record full insn-number-max unlimited", "set record full insn-number-max 65536"),
]
LISTS = [("i lo", "info locals"), ("info l", "info locals"), ("i a", "info args"), ("inf args", "info args"), ("h", "help"), ("bac", "backtrace")]

# What the prompt takes and the console does not, since it is more than a command, or something else.
OTHERS = ["tb 9", "u 17", "until 17", "run", "info watchpoints", "goto 3", "last total", "when total > 1", "list", "b f", "d 1 2", "d 1-3", "rev"]

# Variables with names that are words of the prompt; those of the function that is called are parameters.
NAMED = """int called(int fin, int del) {
    return fin + del;
}
export void go() {
    int d = programIndex;
    uniform int where = 3;
    d += where;
    d = called(d, 1);
}
"""


def came(client, line, **frame):
    """What a line comes to: its response, where the program stands then, and the events behind it."""
    message = client.answer("evaluate", {"expression": line, "context": "repl", **frame})
    place = client.place()
    events, client.events = client.events, []
    return message["success"], message.get("body"), message.get("message"), place, events


def both(client, width, lines):
    """What each of some lines comes to, by the debugger's own lines and by the words of the prompt."""
    with written(RECURSION) as source:
        told = []
        for column in (1, 0):
            at_depth_3(client, source, width)
            told.append([came(client, pair[column]) for pair in lines])
            client.again()
        for pair, own, short in zip(lines, *told):
            same((pair[0], short), (pair[0], own))
    client.ask("initialize", adapterID="rinddecade")
    client.end()


def moves_by_words(client, width):
    """The program moves by the words of the prompt as by the debugger's own lines."""
    both(client, width, MOVES)


def stops_by_words(client, width):
    """Breakpoints, watches and values are set by them, and a refusal is that of the debugger's own line."""
    both(client, width, STOPS)


def lists_by_words(client, width):
    """Lists are those of the frame that is looked at."""
    with written(RECURSION) as source:
        at_depth_3(client, source, width)
        for frame in ({}, {"frameId": 3}, {"frameId": 2}, {"frameId": 1}):
            for line, own in LISTS:
                same((line, came(client, line, **frame)), (line, came(client, own, **frame)))
        client.end()


def other_lines(client, width):
    """What is more than one command, or none of the debugger's, is refused, and nothing is done."""
    with written(RECURSION) as source:
        at_depth_3(client, source, width)
        own = came(client, "info breakpoints")
        for line in OTHERS:
            client.refused("evaluate", expression=line, context="repl")
        for context in ("watch", "hover"):
            for line in ("d 1", "fin", "where", "i b"):
                need(client.refused("evaluate", expression=line, context=context).startswith("S"), f"`{line}` is answered elsewhere")
        same(came(client, "info breakpoints"), own)
        client.end()


def names_of_variables(client, width):
    """A name of a variable is looked up in the frame asked for; where no variable has it, and with a number behind it, it is a command."""
    own = " ".join(str(lane) for lane in range(width))
    with written(NAMED) as source:
        client.launch(source, width=width)
        client.breakpoints(2, 7)
        client.begin()
        client.move("continue")
        typed = lambda line, **frame: client.ask("evaluate", expression=line, context="repl", **frame)["result"]
        same([typed("d"), typed("where"), typed("  where ")], ["d = " + own, "where = 3", "where = 3"])
        same(typed("where + 1"), "4")
        same(len(typed("i b").splitlines()), 2)
        client.move("continue")
        need(typed("where") == typed("backtrace"), "`where` is no list of the frames")
        same(typed("where", frameId=1), "3")
        same(typed("del"), "del = " + " ".join(["1"] * width))
        same(len(typed("i b").splitlines()), 2)
        typed("d 1")
        same(len(typed("i b").splitlines()), 1)
        typed("fin", frameId=1)
        client.event("stopped")
        same(len(client.place()), 1)
        typed("del")
        same(typed("i b"), "none")
        same(client.refused("evaluate", expression="fin", context="watch"), f"S5 UnknownName, column 1: {UNKNOWN}")
        client.end()


def conditions_by_words(client, examples):
    """Going on by a word of the prompt heeds conditions too."""
    with written(SOURCE) as path:
        [number] = launched(client, path, (X, {"condition": "i % 12 == 5"}))
        client.begin()
        for line, i in [("cont", 5), ("fg", 17), ("con", 29), ("reverse-cont", 17)]:
            client.ask("evaluate", expression=line, context="repl")
            hit(client, client.event("stopped"), number, X, i)
        client.end()


WORD_CHECKS = [*(check for it in (moves_by_words, stops_by_words, lists_by_words, other_lines, names_of_variables) for check in at_widths(it)), conditions_by_words]
