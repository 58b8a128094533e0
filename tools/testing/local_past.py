"""`last` and `changes` of variables of functions at the prompt, at 4, 8 and 16 lanes: whole and by lanes and elements, of all kinds of types,
in the top frame and in an outer one of a recursion of depth 3, up to where a variable is declared or its frame began.

What each lane shows, and after which statement, is worked out here by arithmetic.
"""

from .conditions import MARK, judged
from .tried import Run

WIDTHS = (4, 8, 16)
NAME = "past.ispc"
INPUT = "past.input"
GIVEN = b"count = 3\n"
SOURCE = b"""uniform int total = 0;
uniform int64 table[4];
int down(uniform int n, int by, uniform int64 row[]) {
    int8 v = by * 50;
    uniform bool odd = false;
    if (n > 0) {
        int w = down(n - 1, by, row);
        v += w;
        odd = !odd;
    }
    row[n] = n - 4;
    v -= programIndex;
    return v;
}
export void go(uniform int count) {
    int64 x = 3000000000;
    uniform uint8 i = 0;
    while (i < count) {
        int16 w = i;
        if (programIndex > 1) {
            x *= -2;
        } else {
            w -= 300;
        }
        i += 1;
    }
    bool even = programIndex % 2 == 0;
    {
        int x = 7;
        x += 1;
        even = !even;
    }
    int y = down(2, 1, table);
    total = 1;
}
"""
DECLARED = "has had its value since it was declared, by this step:\n"
ENTERED = "has had its value since its frame was entered:\n"


def by_lane(width, word):
    return " ".join(str(word(lane)).lower() for lane in range(width))


def at(line, width, is_active=lambda lane: True, function="go", depth=""):
    """How a place begins and ends: the step between is left out."""
    return f"{function} at {NAME}:{line}:", f"{depth}, step ", "lanes " + "".join("#" if is_active(lane) else "." for lane in range(width)) + "\n"


def changed(name, old, new):
    return f"{name} = {old} -> {new} by this statement:\n"


def x_after(rounds):
    """What `x` shows after so many rounds."""
    return lambda lane: 3000000000 * (-2) ** rounds if lane > 1 else 3000000000


def in_first_arm(lane):
    return lane > 1


def in_other_arm(lane):
    return lane <= 1


def of_lanes(width):
    """Back from change to change of a varying int64, each in the lanes of one arm, to its declaration; a block hides it for a while."""
    words = [by_lane(width, x_after(rounds)) for rounds in range(4)]
    lines = ["break 33", "run", "print x[2]", *["last x"] * 4, "last x", "print i"]
    wanted = [
        ("breakpoint 1 at line 33",),
        ("breakpoint 1:",),
        (f"x[2] = {x_after(3)(2)}\n",),
        *[(changed("x", words[number], words[number + 1]), *at(21, width, in_first_arm)) for number in (2, 1, 0)],
        (f"x {DECLARED}", *at(16, width)),
        ("C2 NoSuchName", "!declared"),
        ("C2 NoSuchName",),
    ]
    return "back to its declaration", lines, wanted


def of_inner(width):
    """An inner variable of the name of an outer one: its own changes, and its own declaration."""
    sevens, eights = (by_lane(width, lambda lane, word=word: word) for word in (7, 8))
    lines = ["break 31", "run", "last x", "last x", "print x[2]"]
    wanted = [
        ("breakpoint 1 at line 31",),
        ("breakpoint 1:",),
        (changed("x", sevens, eights), *at(30, width)),
        (f"x {DECLARED}", *at(29, width)),
        (f"x[2] = {3000000000 * -8}\n",),
    ]
    return "an inner variable", lines, wanted


def of_waiting_lanes(width):
    """A change in lanes that wait now is none the less one; a lane of the other arm has kept its value."""
    old, new = (by_lane(width, x_after(rounds)) for rounds in (0, 1))
    last = width - 1
    lines = ["break 23", "run", "last x", "continue", f"last x[{last}]", "continue", "last x[1]"]
    wanted = [
        ("breakpoint 1 at line 23",),
        ("breakpoint 1:",),
        (changed("x", old, new), *at(21, width, in_first_arm)),
        ("breakpoint 1:",),
        (changed(f"x[{last}]", 3000000000, -6000000000), *at(21, width, in_first_arm)),
        ("breakpoint 1:",),
        (f"x[1] {DECLARED}", *at(16, width)),
    ]
    return "lanes that wait", lines, wanted


def of_rounds(width):
    """A variable of a loop's body: its declaration in this round ends the way, and not a change of an earlier round. Breakpoints stop nothing."""
    old, new = by_lane(width, lambda lane: 1), by_lane(width, lambda lane: 1 if lane > 1 else 1 - 300)
    lines = ["break 25", "run", "continue", "break 20", "break 21", "last w", "last w", "print i", "goto 0", "last count", "last i", "info breakpoints"]
    wanted = [
        ("breakpoint 1 at line 25",),
        ("breakpoint 1:",),
        ("breakpoint 1:",),
        ("breakpoint 2 at line 20",),
        ("breakpoint 3 at line 21",),
        (changed("w", old, new), *at(23, width, in_other_arm)),
        (f"w {DECLARED}", *at(19, width), "!breakpoint"),
        ("i = 1\n",),
        (*at(16, width), "step 0"),
        ("count has had its value from the start\n", "step 0"),
        ("C2 NoSuchName",),
        ("1  breakpoint, line 25", "2  breakpoint, line 20", "3  breakpoint, line 21"),
    ]
    return "a loop's body", lines, wanted


def of_frames(width):
    """In a recursion: only this frame's own changes, its declarations, and where it began; also of an outer frame that is selected."""
    depth = ", depth 4"
    lines = ["break 12 if n == 0", "run", "last v", "goto 0", "run", "last by", "last n", "goto 0", "run", "up", "last v", "print n", "goto 0", "run", "up 2", "last n", "print n", "goto 0", "run", "up 3", "last x", "print i"]
    here = ("breakpoint 1:",)
    start = (*at(16, width), "step 0")
    wanted = [
        ("breakpoint 1 at line 12",),
        here,
        (f"v {DECLARED}", *at(4, width, function="down", depth=depth)),
        start,
        here,
        (f"by {ENTERED}", *at(4, width, function="down", depth=depth)),
        (f"n {ENTERED}", *at(4, width, function="down", depth=depth)),
        start,
        here,
        ("down at",),
        (f"v {DECLARED}", *at(4, width, function="down", depth=", depth 3")),
        ("n = 1\n",),
        start,
        here,
        ("down at",),
        (f"n {ENTERED}", *at(4, width, function="down", depth=", depth 2")),
        ("n = 2\n",),
        start,
        here,
        ("go at",),
        (changed("x", by_lane(width, x_after(2)), by_lane(width, x_after(3))), *at(21, width, in_first_arm)),
        ("i = 2\n",),
    ]
    return "frames of a recursion", lines, wanted


def of_calls(width):
    """A variable that a call gives its value is declared by the step that returns; what the call does to its own variable of the name is none of it."""
    lines = ["break 9 if n == 1", "run", "print w[3]", "changes w", "last w"]
    wanted = [
        ("breakpoint 1 at line 9",),
        ("breakpoint 1:",),
        ("w[3] = 47\n",),
        (f"down at {NAME}:14:1, depth 4", f"declared, {by_lane(width, lambda lane: 50 - lane)}\n"),
        (f"w {DECLARED}", *at(14, width, function="down", depth=", depth 4")),
    ]
    return "a call's result", lines, wanted


def wrapped(word):
    """As an int8."""
    return (word + 128) % 256 - 128


def of_types(width):
    """An int8 that wraps, a uniform bool, a varying one, an unsigned one, and elements of an array that a function was passed, which deeper frames change."""
    inner = lambda lane: 100 - 2 * lane
    old, new = by_lane(width, lambda lane: 50), by_lane(width, lambda lane: wrapped(50 + inner(lane)))
    even, odd = by_lane(width, lambda lane: lane % 2 == 0), by_lane(width, lambda lane: lane % 2 == 1)
    there = ["goto 0", "run"]
    lines = ["break 12 if n == 2", "run", "last v", *there, "last odd", *there, "last row[1]", *there, "last row[2]", *there, "last row[3]", *there, "up", "last even", *there, "up", "last i"]
    again = [(*at(16, width), "step 0"), ("breakpoint 1:",)]
    wanted = [
        ("breakpoint 1 at line 12",),
        ("breakpoint 1:",),
        (changed("v", old, new), *at(8, width, function="down", depth=", depth 2")),
        *again,
        (changed("odd", "false", "true"), *at(9, width, function="down", depth=", depth 2")),
        *again,
        (changed("row[1]", 0, -3), *at(11, width, function="down", depth=", depth 3")),
        *again,
        (changed("row[2]", 0, -2), *at(11, width, function="down", depth=", depth 2")),
        *again,
        (f"row[3] {ENTERED}", *at(4, width, function="down", depth=", depth 2")),
        *again,
        ("go at",),
        (changed("even", even, odd), *at(31, width)),
        *again,
        ("go at",),
        (changed("i", 2, 3), *at(25, width)),
    ]
    return "types and elements", lines, wanted


def of_lists(width):
    """`changes`: the last ones, the newest first, back to the declaration, and the program stands where it stood."""
    words = [by_lane(width, x_after(rounds)) for rounds in range(4)]
    told = [f"{words[number]} -> {words[number + 1]}\n" for number in range(3)]
    lines = ["break 33", "run", "changes x", "frame", "changes x 2", f"changes x[{width - 1}] 1", "changes i", "changes count", "changes even", "info breakpoints", "print i", "break 12 if n == 1", "continue", "changes n", "changes v", "up", "changes x 1", "frame"]
    v = by_lane(width, lambda lane: 50), by_lane(width, lambda lane: 100 - lane)
    wanted = [
        ("breakpoint 1 at line 33",),
        ("breakpoint 1:",),
        (*told, f"declared, {words[0]}\n", f"go at {NAME}:16:", "!breakpoint"),
        ("go at", f"{NAME}:33:"),
        (*told[1:], f"!{told[0]}", "!declared"),
        (f": {3000000000 * 4} -> {3000000000 * -8}\n", "!declared"),
        (": 2 -> 3\n", ": 1 -> 2\n", ": 0 -> 1\n", "declared, 0\n"),
        ("count has had its value from the start\n",),
        (f"{by_lane(width, lambda lane: lane % 2 == 0)} -> ", "declared, "),
        ("1  breakpoint, line 33", "!watch"),
        ("i = 3\n",),
        ("breakpoint 2 at line 12",),
        ("breakpoint 2:",),
        ("when its frame was entered: 1\n",),
        (f": {v[0]} -> {v[1]}\n", f"declared, {v[0]}\n"),
        ("down at",),
        ("C2 NoSuchName",),
        ("down at", f"{NAME}:7:"),
    ]
    return "lists", lines, wanted


def of_held(width):
    """Nothing that is watched changes, no number is taken, and watches of this frame and of those around it stay."""
    lines = ["break 12 if n == 1", "run", "watch v", "watch odd if odd", "up 2", "watch even", "frame 0", "last v", "info watchpoints", "changes odd", "info watchpoints", "break 33", "delete 2-4", "last odd", "info breakpoints"]
    kept = ("2  watch, v, of the frame at depth 3", "3  watch, odd, of the frame at depth 3", "3 stops only if odd", "4  watch, even, of the frame at depth 1", "!5 ")
    wanted = [
        ("breakpoint 1 at line 12",),
        ("breakpoint 1:",),
        ("watch 2: v",),
        ("watch 3: odd",),
        ("go at",),
        ("watch 4: even",),
        ("down at",),
        (changed("v", by_lane(width, lambda lane: 50), by_lane(width, lambda lane: 100 - lane)), "!ends"),
        kept,
        (f"{NAME}:5:", "declared, false\n"),
        kept,
        ("breakpoint 5 at line 33",),
        ("deleted",),
        (f"odd {DECLARED}",),
        ("1  breakpoint, line 12", "5  breakpoint, line 33", "!watch"),
    ]
    return "what is held", lines, wanted


def of_values(width):
    """Where a value was set: `last` and `changes` do nothing, of whatever variable, until it is taken back."""
    lines = ["break 25", "run", "set var i = 9", "changes i", "last i", "last w", "last table[2]", "print i", "undo", "last w", "print i", "last", "changes", "changes table", "last x[99]", "last nobody"]
    refused = ("Nothing is done: a value was set by `set var`, which going back would take back; `undo` takes it back.\n", "!has had its value", "!by this statement")
    wanted = [
        ("breakpoint 1 at line 25",),
        ("breakpoint 1:",),
        ("i = 9\n",),
        *[refused] * 4,
        ("i = 9\n",),
        ("a change by `set var` is taken back:", "i = 9 -> 0\n"),
        (changed("w", by_lane(width, lambda lane: 0), by_lane(width, lambda lane: 0 if lane > 1 else -300)), *at(23, width, in_other_arm)),
        ("i = 0\n",),
        ("C1 BadCommand: A variable, a lane or an element follows `last`",),
        ("C1 BadCommand: A variable, a lane or an element follows `changes`",),
        ("C",),
        ("C",),
        ("C2 NoSuchName",),
    ]
    return "values that were set", lines, wanted


PARTS = (of_lanes, of_inner, of_waiting_lanes, of_rounds, of_frames, of_calls, of_types, of_lists, of_held, of_values)


def runs():
    found = []
    for width in WIDTHS:
        for part in PARTS:
            name, lines, wanted = part(width)
            typed = f"{MARK}\n" + "".join(f"{line}\n{MARK}\n" for line in lines)
            arguments = ["debug", NAME, "--width", str(width), "--input", INPUT]
            found.append(Run(f"the past of {name}, {width} lanes", typed.encode(), arguments, judged(wanted), b"", data={NAME: SOURCE, INPUT: GIVEN}))
    return found
