"""Watches of variables of functions at the prompt, at 8 and 16 lanes, on and back: whole and by lanes, in the top frame and in an
outer one of a recursion of depth 3, with conditions and counts, until the frame is left or not yet entered.

What each lane shows, and after which statement, is worked out here by arithmetic.
"""

from .conditions import MARK, judged, lanes
from .tried import Run

WIDTHS = (8, 16)
NAME = "watched.ispc"
SOURCE = b"""uniform int total = 0;
int down(uniform int n, int by) {
    int v = by - 3;
    uniform bool odd = false;
    if (n > 0) {
        int w = down(n - 1, by);
        v = v + w;
        odd = !odd;
    }
    v = v - programIndex;
    return v;
}
export void go() {
    int x = 0;
    uniform int i = 0;
    uniform int square = 0;
    while (i < 3) {
        if (programIndex > 1) {
            x -= i + 1;
        } else {
            x += 2;
        }
        square = i * i - 7;
        i += 1;
    }
    int y = down(2, x);
    total = 1;
}
"""


def changes(width):
    """What `x` shows after each of its six changes, of which every second one is made in lanes 0 and 1 alone."""
    x, found = [0] * width, []
    for number in range(3):
        x = [it - number - 1 if lane > 1 else it for lane, it in enumerate(x)]
        found.append(x)
        x = [it if lane > 1 else it + 2 for lane, it in enumerate(x)]
        found.append(x)
    return found


def last(width):
    """What `x` shows behind the loop."""
    return changes(width)[-1]


def shown(word, is_active):
    """What a lane shows: in brackets where it waits."""
    return f"{word}" if is_active else f"({word})"


def prints(name, width, words, is_active=lambda lane: True):
    """Lines that print the first lanes and the last, and what they tell."""
    asked = (0, 1, 2, width - 1)
    return [f"print {name}[{lane}]" for lane in asked], [(f"{name}[{lane}] = {shown(words[lane], is_active(lane))}\n",) for lane in asked]


def in_first_arm(lane):
    return lane > 1


def in_other_arm(lane):
    return lane <= 1


def of_lanes(width):
    """Each change stops, in whichever lanes it is made, on and back."""
    lines = ["break 17", "run", "delete 1", "watch x", "info watchpoints"]
    wanted = [("breakpoint 1 at line 17",), ("breakpoint 1:",), ("deleted 1",), ("watch 2: x",), ("2  watch, x, of the frame at depth 1",)]
    for number, words in enumerate(changes(width)):
        # (behind the first arm the lanes of the other one are at it, and then all lanes go on)
        more, told = prints("x", width, words, (lambda lane: True) if number % 2 else in_other_arm)
        lines, wanted = [*lines, "continue", *more], [*wanted, ("watch 2:",), *told]
    lines, wanted = [*lines, "continue"], [*wanted, ("the program has ended",)]
    for number, words in enumerate(reversed([[0] * width, *changes(width)[:-1]])):
        more, told = prints("x", width, words, in_first_arm if number % 2 else in_other_arm)
        lines, wanted = [*lines, "reverse-continue", *more], [*wanted, ("watch 2:",), *told]
    return "each change of a local", [*lines, "reverse-continue"], [*wanted, ("the history goes back no further",)]


def of_parts(width):
    """A lane, beside a scalar with a condition."""
    more = ["print square", "print i", "continue", "continue"]
    lines = ["break 17", "run", "delete", f"watch x[{width - 1}]", "watch square if square == -6", *["continue"] * 3, *more]
    wanted = [
        ("breakpoint 1 at line 17",),
        ("breakpoint 1:",),
        ("all breakpoints and watches are deleted",),
        (f"watch 2: x[{width - 1}]",),
        ("watch 3: square", "3 stops only if square == -6"),
        ("watch 2:", f"x[{width - 1}] = (-1)\n"),
        ("watch 2:", f"x[{width - 1}] = (-3)\n"),
        ("watch 3:", "square"),
        ("square = -6\n",),
        ("i = 1",),
        ("watch 2:", f"x[{width - 1}] = (-6)\n"),
        ("the program has ended",),
    ]
    return "a lane, and a scalar with a condition", lines, wanted


def of_frames(width):
    """In a frame of a recursion: the same name of another frame stops nothing, and the watch ends with its frame."""
    x = last(width)
    # In the frame of n == 1: v is that of the frame of n == 0 beside its own.
    v = [2 * (it - 3) - lane for lane, it in enumerate(x)]
    more, told = prints("v", width, [it - lane for lane, it in enumerate(v)])
    lines = ["break 10 if n == 1", "run", "watch v", "condition 2", "continue", *more, "backtrace", "continue", "info watchpoints", "continue"]
    wanted = [
        ("breakpoint 1 at line 10",),
        ("breakpoint 1:",),
        ("watch 2: v",),
        ("2 stops always",),
        ("watch 2:",),
        *told,
        ("down", "go"),
        ("watch 2 of v ends: its frame has been left",),
        ("no watches",),
        ("the program has ended",),
    ]
    return "a frame of a recursion", lines, wanted


def of_outer_frames(width):
    """In an outer frame: what the top frame does to its own variable of the name stops nothing."""
    x = last(width)
    v = [2 * (it - 3) - lane for lane, it in enumerate(x)]
    more, told = prints("v", width, v)
    lines = ["break 10 if n == 0", "run", "delete 1", "up", "watch v", "watch odd", "frame 0", "continue", *more, "print n", "continue", "print odd", "reverse-continue"]
    wanted = [
        ("breakpoint 1 at line 10",),
        ("breakpoint 1:",),
        ("deleted 1",),
        ("down",),
        ("watch 2: v",),
        ("watch 3: odd",),
        ("down",),
        ("watch 2:",),
        *told,
        ("n = 1",),
        ("watch 3:",),
        ("odd = true",),
        ("watch 3:",),
    ]
    return "an outer frame", lines, wanted


def of_entries(width):
    """Back to where a frame is not yet entered; and lines that may lead into another one."""
    lines = ["break 10 if n == 0", "run", "watch v", "reverse-continue", "info watchpoints", "continue", "watch v", "next", "step 5", "break 10", "watch i", "run"]
    wanted = [
        ("breakpoint 1 at line 10",),
        ("breakpoint 1:",),
        ("watch 2: v",),
        ("watch 2 of v ends: its frame is not yet entered here",),
        ("no watches",),
        ("breakpoint 1:", lanes(width, lambda lane: True)),
        ("watch 3: v",),
        ("",),
        ("watch 3 of v ends: ",),
        ("breakpoint 4 at line 10",),
        ("",),
        ("The program begins anew",),
    ]
    return "frames that are not yet entered", lines, wanted


def of_ends(width):
    """Three steps that leave the top frame: its watch ends with it, and that of the frame around it, which the line may have left; going back each
    ends where its frame is not yet entered."""
    lines = ["break 10 if n == 0", "run", "watch v", "up", "watch v", "up", "watch n", "step 3", "watch v", "goto 1", "watch x", "goto 3", "info watchpoints"]
    # In the order in which they were made: of depth 4, 3 and 2. Behind the three steps depth 3 is that of the top frame.
    wanted = [
        ("breakpoint 1 at line 10",),
        ("breakpoint 1:",),
        ("watch 2: v, while this frame is there\n",),
        ("#1  down at",),
        ("watch 3: v, while this frame is there\n",),
        ("#2  down at",),
        ("watch 4: n, while this frame is there\n",),
        ("watch 2 of v ends: its frame has been left\n", *(f"watch {it} ends: this line may have left its frame\n" for it in ("3 of v", "4 of n"))),
        ("watch 5: v, while this frame is there\n",),
        ("watch 5 of v ends: its frame is not yet entered here\n", "!has been left", "!may have left"),
        ("watch 6: x, while this frame is there\n",),
        ("!ends",),
        ("6  watch, x, of the frame at depth 1\n",),
    ]
    return "frames that may have been left", lines, wanted


def of_lines_that_lead_nowhere(width):
    """A watch of a frame stays where a line that leads to another moment is refused, or leads to this one; it ends with one that leads away."""
    lines = ["break 10 if n == 0", "run", "delete 1", "checkpoint", "watch v"]
    lines += ["goto x", "until 99", "last nobody", "restart 7", "restart 1", "info watchpoints", "goto 2", "info watchpoints"]
    nothing_ends = "!watch 2 of v ends"
    wanted = [
        ("breakpoint 1 at line 10",),
        ("breakpoint 1:",),
        ("deleted 1",),
        ("",),
        ("watch 2: v",),
        (nothing_ends,),
        (nothing_ends,),
        (nothing_ends,),
        (nothing_ends,),
        (nothing_ends,),
        ("2  watch, v, of the frame at depth 4",),
        ("watch 2 of v ends: its frame is not yet entered here",),
        ("no watches",),
    ]
    return "lines that lead nowhere", lines, wanted


def of_conditions(width):
    """A condition is worked out where the program stands then, in the lanes that are active there; and a count."""
    lines = ["break 17", "run", "delete 1", "watch x if x < -2", "continue", "print x[2]", "print i", "condition 2", "ignore 2 1", "info breakpoints", "reverse-continue", "print x[2]", "delete 2", "continue"]
    # The change from -1 to -3 is seen from the other arm, whose lanes show 2; that of these lanes from all.
    wanted = [
        ("breakpoint 1 at line 17",),
        ("breakpoint 1:",),
        ("deleted 1",),
        ("watch 2: x", "2 stops only if x < -2"),
        ("watch 2:", lanes(width, lambda lane: lane > 1)),
        ("x[2] = -3",),
        ("i = 1",),
        ("2 stops always",),
        ("2: 1 stop will be passed",),
        ("2  watch, x, of the frame at depth 1", "2: 1 stop will be passed"),
        ("watch 2:",),
        ("x[2] = -1",),
        ("deleted 2",),
        ("the program has ended",),
    ]
    return "with a condition", lines, wanted


def of_refusals(width):
    """Lines that watch nothing."""
    lines = ["break 17", "run", "watch table", "watch nobody", "watch i[0]", "watch table[3]", *["watch i"] * 17, "delete 40"]
    wanted = [
        ("breakpoint 1 at line 17",),
        ("breakpoint 1:",),
        ("C2 NoSuchName",),
        ("C2 NoSuchName",),
        ("C2 NoSuchName",),
        ("C2 NoSuchName",),
        *[(f"watch {number}: i",) for number in range(2, 18)],
        ("C11 TableFull",),
        ("C10 NoSuchNumber",),
    ]
    return "refused", lines, wanted


def runs():
    found = []
    for width in WIDTHS:
        for part in (of_lanes, of_parts, of_frames, of_outer_frames, of_entries, of_ends, of_lines_that_lead_nowhere, of_conditions, of_refusals):
            name, lines, wanted = part(width)
            typed = f"{MARK}\n" + "".join(f"{line}\n{MARK}\n" for line in lines)
            found.append(Run(f"watches of {name}, {width} lanes", typed.encode(), ["debug", NAME, "--width", str(width)], judged(wanted), b"", data={NAME: SOURCE}))
    return found
