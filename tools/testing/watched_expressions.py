"""Watches of expressions at the prompt, at 4, 8 and 16 lanes, on and back: of each type, of one that wraps, where a lane has a fault, in the
top frame and in an outer one, with conditions, counts and lines, until the frame is left; and texts that are refused.

What each lane shows, and after which statement, is worked out here by arithmetic.
"""

from . import watching
from .conditions import MARK, judged, lanes
from .tried import Run

WIDTHS = (4, 8, 16)
NAME = "watched.ispc"
SOURCE = b"""uniform int table[4];
uniform int total = 0;
int scaled(uniform int n, int by) {
    int v = by * 2;
    v = v + n;
    v = v - 1;
    return v;
}
export void go() {
    int8 small = 100;
    int8 by = programIndex;
    uniform unsigned int count = 2;
    int64 big = 3000000000;
    uniform int i = 0;
    while (i < 4) {
        small += 10;
        count -= 1;
        big *= 2;
        table[i] = i * 3;
        i += 1;
    }
    int y = scaled(3, programIndex);
    y = scaled(4, y);
    total = 1;
}
"""
FIRST, ROUNDS = 16, 4
BEGUN = [f"break {FIRST}", "run", "delete 1"], [(f"breakpoint 1 at line {FIRST}",), ("breakpoint 1:",), ("deleted 1",)]
FAULTY = b"""uniform int total = 0;
export void go() {
    int e = 3;
    uniform int i = 0;
    while (i < 4) {
        if (programIndex == 2) {
            e -= 1;
        } else {
            if (i == 2) {
                e = 1;
            }
        }
        i += 1;
    }
    total = 1;
}
"""
ENDED = ("the program has ended",)
AT_START = ("the history goes back no further",)


def wrapped(value, bits):
    """A whole number as one of so many bits with a sign."""
    return (value + (1 << (bits - 1))) % (1 << bits) - (1 << (bits - 1))


def told(text, words):
    """How a text is shown that has these words in the lanes."""
    return "  " + " ".join([text, "=", *(str(it) for it in words)]) + "\n"


def session(made, stops, back):
    """Lines and answers: one that watches, on over these stops to the end, and back over those to the start."""
    lines = [*BEGUN[0], made[0], *["continue"] * (len(stops) + 1), *["reverse-continue"] * (len(back) + 1)]
    wanted = [*BEGUN[1], made[1], *(("watch 2:", it) for it in stops), ENDED, *(("watch 2:", it) for it in back), AT_START]
    return lines, wanted


def both_ways(text, shown):
    """The session of a text that shows each of these one after another, the first one before the first change."""
    lines = [told(text, it) for it in shown]
    return session((f"watch {text}", (f"watch 2: {text}, while this frame is there\n",)), lines[1:], lines[-2::-1])


def of_bytes(width):
    """A varying int8 that wraps."""
    shown = [[wrapped(100 + 10 * number + lane, 8) for lane in range(width)] for number in range(ROUNDS + 1)]
    return "a byte that wraps", *both_ways("small + by", shown)


def of_unsigned(width):
    """A uniform unsigned int32 that goes below 0."""
    return "an unsigned number", *both_ways("count - 1", [[(1 - number) % (1 << 32)] for number in range(ROUNDS + 1)])


def of_wide(width):
    """A varying int64 beyond 32 bits."""
    return "a wide number", *both_ways("big * by - 1", [[(3000000000 << number) * lane - 1 for lane in range(width)] for number in range(ROUNDS + 1)])


def of_bools(width):
    """A bool that changes though nothing that it names does, and is left out where its index is past the end.

    `table[i]` is 0, 3, 6 and 9 behind its statement, and 0 before it. In the last round `i` is 4 behind `i += 1`: no lane shows anything
    there, so nothing has changed.
    """
    text = "table[i] > 3"
    made = (f"watch {text}", (f"watch 2: {text}, while this frame is there\n",))
    stops = [told(text, [it]) for it in ("true", "false", "true")]
    back = [told(text, [it]) for it in ("false", "true", "false")]
    return "a bool", *session(made, stops, back)


def of_faults(width):
    """A fault in one lane hides this lane alone: `6 / e` is 2 in each lane; in lane 2 then 3, 6, none and -6, in the others 6 in round 2.

    Behind the first arm the lanes of the other one are active, and behind that all.
    """
    text = "6 / e"

    def of_others(word):
        return told(text, ["." if lane == 2 else word for lane in range(width)])

    fault = f"  {text} has no value: F1 DivideByZero: a division by 0 in lane 2\n"
    lines = ["break 6", "run", "delete 1", f"watch {text}", *["continue"] * 4, *["reverse-continue"] * 4]
    wanted = [("breakpoint 1 at line 6",), ("breakpoint 1:",), ("deleted 1",), (f"watch 2: {text}",)]
    # On: to 3 and to 6 in lane 2; then its fault stops nothing, and the other lanes change; then its value is there again.
    wanted += [("watch 2:", of_others(2)), ("watch 2:", of_others(2)), ("watch 2:", fault), ENDED]
    # Back: before the change of the other lanes those are active alone; and before its own changes lane 2 is.
    alone = [told(text, [str(word) if lane == 2 else "." for lane in range(width)]) for word in (3, 2)]
    wanted += [("watch 2:", of_others(2)), ("watch 2:", alone[0]), ("watch 2:", alone[1]), AT_START]
    return "a fault in one lane", lines, wanted, FAULTY


def of_frames(width):
    """In the frame of a call: the same text in a later call stops nothing, and the watch ends with its frame."""
    text = "v * n"
    shown = [[(2 * lane + more) * 3 for lane in range(width)] for more in (0, 3, 2)]
    lines = ["break 5 if n == 3", "run", f"watch {text}", "info watchpoints", "condition 1 n == 9", "continue", "continue", "reverse-continue", "reverse-continue"]
    wanted = [
        ("breakpoint 1 at line 5",),
        ("breakpoint 1:",),
        (f"watch 2: {text}, while this frame is there\n",),
        (f"2  watch, {text}, of the frame at depth 2\n",),
        ("1 stops only if n == 9",),
        ("watch 2:", told(text, shown[1])),
        ("watch 2:", told(text, shown[2])),
        ("watch 2:", told(text, shown[1])),
        ("watch 2:", told(text, shown[0])),
    ]
    lines += ["continue", "continue", "continue", "info watchpoints", "continue"]
    wanted += [("watch 2:",), ("watch 2:",), (f"watch 2 of {text} ends: its frame has been left\n",), ("no watches",), ENDED]
    lines += ["condition 1 n == 3", "reverse-continue", f"watch {text}", "reverse-continue"]
    wanted += [("1 stops only",), ("breakpoint 1:",), (f"watch 3: {text}",), (f"watch 3 of {text} ends: its frame is not yet entered here\n",)]
    return "a frame of a call", lines, wanted


def of_outer_frames(width):
    """In an outer frame that is selected: what the top frame does to its own variables stops nothing."""
    v = [2 * (it - 3) for it in watching.last(width)]
    v = [it - lane for lane, it in enumerate(v)]
    lines = ["break 10 if n == 0", "run", "delete 1", "up", "watch v * 2", "watch n > 0 && odd", "info watchpoints", "frame 0", "continue", "print n", "continue", "print odd"]
    wanted = [("breakpoint 1 at line 10",), ("breakpoint 1:",), ("deleted 1",), ("down",), ("watch 2: v * 2",), ("watch 3: n > 0 && odd",)]
    depth = 3  # (`go`, and `down` of n == 2 and of n == 1)
    wanted += [(f"2  watch, v * 2, of the frame at depth {depth}\n", f"3  watch, n > 0 && odd, of the frame at depth {depth}\n"), ("down",)]
    wanted += [("watch 2:", told("v * 2", [2 * it for it in v])), ("n = 1",), ("watch 3:", told("n > 0 && odd", ["true"])), ("odd = true",)]
    return "an outer frame", lines, wanted, watching.SOURCE


def of_conditions(width):
    """With a condition, a count and lines, disabled and deleted."""
    text = "small + by"
    shown = [told(text, [wrapped(100 + 10 * number + lane, 8) for lane in range(width)]) for number in range(ROUNDS + 1)]
    lines = [*BEGUN[0], f"watch {text} if i > 1", "continue", "print i", "condition 2", "ignore 2 1", "info breakpoints", "reverse-continue", "print i"]
    wanted = [*BEGUN[1], (f"watch 2: {text}, while this frame is there\n", "2 stops only if i > 1"), ("watch 2:", shown[3], lanes(width, lambda lane: True)), ("i = 2",)]
    # Back: the change of this round is passed for the count, and that of the round before it stops.
    wanted += [("2 stops always",), ("2: 1 stop will be passed",), (f"2  watch, {text}, of the frame at depth 1\n", "2: 1 stop will be passed")]
    wanted += [("watch 2:", shown[1]), ("i = 1",)]
    lines += ["commands 2\nprint i * 10\nend", "continue", "disable 2", "continue", "enable 2", "reverse-continue", "delete 2", "reverse-continue"]
    wanted += [("",), ("watch 2:", shown[2], "i * 10 = 10\n"), ("",), ENDED, ("",), ("watch 2:", shown[3], "i * 10 = 30\n"), ("deleted 2",), AT_START]
    return "with a condition, a count and lines", lines, wanted


def of_refusals(width):
    """Texts that are not watched, and how many can be."""
    lines = [*BEGUN[0], "watch", "watch i +", "watch nobody + 1", "watch i + nobody if i > 1", "watch scaled(1, 2) + 1", "watch table + 1", "watch i = 3", "info watchpoints"]
    wanted = [
        *BEGUN[1],
        ("C1 BadCommand",),
        ("S3 Unexpected, column 10:",),
        ("S5 UnknownName, column 7:", "    watch nobody + 1\n          ^\n"),
        ("S5 UnknownName, column 11:", "    watch i + nobody if i > 1\n              ^\n"),
        ("S9 NoOverload, column 7: a function of the program is not called",),
        ("S8 Type, column ",),
        ("S3 Unexpected, column 9:",),
        ("no watches",),
    ]
    # The longest line is watched, and none that is longer.
    longest = "watch i" + " + 1" * 62
    lines += [longest, longest + " + 1", longest + " + 1 + i"]
    wanted += [(f"watch 2: {longest[6:]}",), ("C1 BadCommand",), ("C1 BadCommand",)]
    lines += [*["watch i + 1"] * 16, "delete 3", "watch i * 2", "delete", "continue", "watch i + 1"]
    wanted += [*[(f"watch {number}: i + 1",) for number in range(3, 18)], ("C11 TableFull",), ("deleted 3",), ("watch 18: i * 2",)]
    wanted += [("all breakpoints and watches are deleted",), ENDED, ("C4 Ended",)]
    return "refused", lines, wanted


def runs():
    found = []
    for width in WIDTHS:
        for part in (of_bytes, of_unsigned, of_wide, of_bools, of_faults, of_frames, of_outer_frames, of_conditions, of_refusals):
            name, lines, wanted, source = (*part(width), SOURCE)[:4]
            typed = f"{MARK}\n" + "".join(f"{line}\n{MARK}\n" for line in lines)
            found.append(Run(f"watched expressions, {name}, {width} lanes", typed.encode(), ["debug", NAME, "--width", str(width)], judged(wanted), b"", data={NAME: source}))
    return found
