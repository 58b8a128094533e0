"""Frames at the prompt whose lanes are others than those of the top frame, or that have other names, at 4, 8 and 16 lanes: what a move has
changed of a caller is told with the caller's lanes, and a watched expression of an outer frame with what it comes to there.

What each lane shows is worked out by hand.
"""

from .conditions import MARK, judged
from .tried import Run

WIDTHS = (4, 8, 16)
NAME = "parted.ispc"
SOURCE = b"""uniform int box[2];
int part(int n) {
    if (programIndex > 1) {
        return 1;
    }
    return n;
}
void fill(uniform int b[]) {
    b[0] = 5;
    b[1] = 6;
}
void outer(uniform int a[]) {
    fill(a);
    a[1] = 0;
}
export void go() {
    int y = 0;
    y = part(3);
    outer(box);
    y += 1;
}
"""


def of_callers(width):
    """The move begins where two lanes run, in a function that all have called."""
    before, behind = " ".join(["0"] * width), " ".join(["3", "3"] + ["1"] * (width - 2))
    lines = ["break 6", "run", "next 2", "reverse-step 2", "next"]
    wanted = [
        ("breakpoint 1 at line 6",),
        ("breakpoint 1: part at parted.ispc:6:5, depth 2", f"lanes ##{'.' * (width - 2)}\n"),
        ("go at parted.ispc:19:5", f"\n  y = {before} -> {behind}\n"),
        ("part at parted.ispc:6:5, depth 2", f"lanes ##{'.' * (width - 2)}\n"),
        ("part at parted.ispc:7:1, depth 2", f"lanes {'#' * width}\n", "!y = "),
    ]
    return "what changed of a caller", lines, wanted


def of_expressions(width):
    """Where the expression changes, its names stand for nothing in the top frame."""
    lines = ["break 9", "run", "up", "watch a[0] * 2", "watch a[1] - 1", "frame 0", "continue", "continue", "continue", "continue"]
    wanted = [
        ("breakpoint 1 at line 9",),
        ("breakpoint 1: fill at parted.ispc:9:5, depth 3",),
        ("#1  outer at parted.ispc:13:5, depth 2",),
        ("watch 2: a[0] * 2",),
        ("watch 3: a[1] - 1",),
        ("#0  fill at parted.ispc:9:5, depth 3",),
        ("watch 2: fill at parted.ispc:10:5, depth 3", "\n  a[0] * 2 = 10\n"),
        ("watch 3: fill at parted.ispc:11:1, depth 3", "\n  a[1] - 1 = 5\n"),
        ("watch 3: outer at parted.ispc:15:1, depth 2", "\n  a[1] - 1 = -1\n"),
        ("go at parted.ispc:20:5", "watch 2 of a[0] * 2 ends: its frame has been left", "watch 3 of a[1] - 1 ends: its frame has been left"),
    ]
    return "a watched expression of an outer one", lines, wanted


def runs():
    found = []
    for width in WIDTHS:
        for name, lines, wanted in (of_callers(width), of_expressions(width)):
            typed = f"{MARK}\n" + "".join(f"{line}\n{MARK}\n" for line in lines)
            found.append(Run(f"frames that part: {name}, {width} lanes", typed.encode(), ["debug", NAME, "--width", str(width)], judged(wanted), b"", data={NAME: SOURCE}))
    return found
