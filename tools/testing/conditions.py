"""Conditions and counts at the prompt: `break N if E`, `watch T if E`, `condition`, `ignore`, `delete`, at 4, 8 and 16 lanes, on and back.

The program runs a loop of 100 rounds, in which `x` of each lane is the round times its lane; what stops, in which lanes and after how many
stops that are passed is worked out here by arithmetic.
"""

import os
import pathlib
import subprocess
import tempfile
import tty

from .calls import all_of
from .tried import Result, Run, shown

WIDTHS = (4, 8, 16)
NAME = "rounds.ispc"
MARK = "echo ----"
SOURCE = b"""uniform int total = 0;
export void go() {
    int x = 0;
    uniform int i = 0;
    while (i < 100) {
        x = i * programIndex;
        total += 2;
        i += 1;
    }
    total = 7;
}
"""
# The line of the sum, and how many rounds there are.
SUM, ROUNDS = 7, 100


def lanes(width, holds):
    """How the lanes are told in which a condition holds."""
    found = [str(lane) for lane in range(width) if holds(lane)]
    return " ".join(["holds in lane" if len(found) == 1 else "holds in lanes", *found])


def passed(count):
    """How the stops are told that were passed."""
    return f"{count} stop{'' if count == 1 else 's'} passed on the way"


def first(holds):
    """The first round in which a condition holds."""
    return next(number for number in range(ROUNDS) if holds(number))


def of_lanes(width):
    """A condition that holds in some lanes: on to the first round where it does, and back."""
    most = width - 1
    # In the line of the sum `x` is that of the round.
    on = first(lambda number: number * most > 70)
    lines = [f"break {SUM} if x > 70", "continue", "print i", "continue", "reverse-continue", "reverse-continue"]
    wanted = [
        ("breakpoint 1 at line 7", "1 stops only if x > 70"),
        ("breakpoint 1:", lanes(width, lambda lane: on * lane > 70), passed(on)),
        (f"i = {on}",),
        ("breakpoint 1:", lanes(width, lambda lane: (on + 1) * lane > 70)),
        ("breakpoint 1:", lanes(width, lambda lane: on * lane > 70)),
        ("the history goes back no further", passed(on)),
    ]
    return "in some lanes", lines, wanted


def of_counts(width):
    """Stops that are passed: the count goes down for those alone whose condition holds."""
    lines = [f"b {SUM} if i % 10 == 3", "ignore 1 4", "info breakpoints", "continue", "print i", "condition 1", "c", "p i", "ignore 1 2", "c", "p i"]
    # Rounds 3, 13, 23 and 33 are passed for the count, all others before 43 by the condition.
    wanted = [
        ("breakpoint 1 at line 7", "1 stops only if i % 10 == 3"),
        ("1: 4 stops will be passed",),
        ("1  breakpoint, line 7", "1 stops only if i % 10 == 3", "1: 4 stops will be passed"),
        ("breakpoint 1:", lanes(width, lambda lane: True), passed(43)),
        ("i = 43",),
        ("1 stops always",),
        ("breakpoint 1:",),
        ("i = 44",),
        ("1: 2 stops will be passed",),
        ("breakpoint 1:", passed(2)),
        ("i = 47",),
    ]
    return "by counts", lines, wanted


def of_faults(width):
    """A condition without a value stops, and says why."""
    lines = [f"break {SUM} if 12 / (i - 5) > 100", "continue", "print i", "condition 1 nobody > 1", "continue", "print i", "delete 1", "continue"]
    wanted = [
        ("breakpoint 1 at line 7",),
        ("breakpoint 1:", "its condition has no value here: 12 / (i - 5) > 100", "F1 DivideByZero", "in lane 0", passed(5)),
        ("i = 5",),
        ("1 stops only if nobody > 1",),
        ("breakpoint 1:", "its condition has no value here: nobody > 1", "S5 UnknownName"),
        ("i = 6",),
        ("deleted 1",),
        ("the program has ended",),
    ]
    return "without a value", lines, wanted


def of_watches(width):
    """A watch with a condition beside breakpoints on one line, of which the first that counts is told."""
    lines = [
        "watch total if total == 60",
        f"break {SUM} if i == 40",
        f"break {SUM} if i == 35",
        "continue",
        "print total",
        "continue",
        "continue",
        "p i",
        "reverse-continue",
        "reverse-continue",
        "p total",
    ]
    # Back over the change from 58 to 60 the watch shows 58, so its condition fails there; over that from 60 to 62 it shows 60.
    wanted = [
        ("watch 1: total", "1 stops only if total == 60"),
        ("breakpoint 2 at line 7",),
        ("breakpoint 3 at line 7",),
        ("watch 1:", lanes(width, lambda lane: True), passed(30 - 1 + 30)),
        ("total = 60",),
        ("breakpoint 3:", lanes(width, lambda lane: True)),
        ("breakpoint 2:",),
        ("i = 40",),
        ("breakpoint 3:",),
        ("watch 1:", lanes(width, lambda lane: True)),
        ("total = 60",),
    ]
    return "by a watch", lines, wanted


def of_runs(width):
    """`run` begins with conditions, also where the program stands at the start, and anew; a temporary breakpoint loses its condition."""
    lines = ["break 3 if programIndex > 99", f"tbreak {SUM} if i == 9", "run", "p i", "info breakpoints", "run", "info breakpoints"]
    wanted = [
        ("breakpoint 1 at line 3",),
        ("breakpoint 2 at line 7", "2 stops only if i == 9"),
        ("breakpoint 2:", lanes(width, lambda lane: True)),
        ("i = 9",),
        ("1  breakpoint, line 3\n1 stops only if programIndex > 99\n",),
        ("The program begins anew", "the program has ended"),
        ("1  breakpoint, line 3\n",),
    ]
    return "by run", lines, wanted


def of_refusals(width):
    """Lines that set nothing."""
    lines = ["condition 1 x > 1", "condition", "condition x", "ignore 1", "ignore 1 2", f"break {SUM} if", "watch total if", "break nobody if x", "info breakpoints"]
    wanted = [
        ("C10 NoSuchNumber",),
        ("C1 BadCommand", "condition N EXPRESSION"),
        ("C1 BadCommand", "condition N EXPRESSION"),
        ("C1 BadCommand", "ignore N COUNT"),
        ("C10 NoSuchNumber",),
        ("C1 BadCommand",),
        ("S3 Unexpected, column 13:",),
        ("C1 BadCommand",),
        ("no breakpoints or watches",),
    ]
    return "refused", lines, wanted


def of_moves(width):
    """Other moves stop at a breakpoint or watch all the same, and say so where its condition does not hold."""
    # The fourth move of a round comes to the sum's line, and the watch shows another value behind it.
    lines = [f"break {SUM} if i == 2", "watch total if total > 99", "step 20", "next 9", "step 9", "step 9", "step 9", "delete 2", "until 10"]
    wanted = [
        ("breakpoint 1 at line 7", "1 stops only if i == 2"),
        ("watch 2: total", "2 stops only if total > 99"),
        ("breakpoint 1:", "its condition does not hold here"),
        ("watch 2:", "its condition does not hold here"),
        ("breakpoint 1:", "its condition does not hold here"),
        ("watch 2:", "its condition does not hold here"),
        ("breakpoint 1:", "!does not hold"),
        ("deleted 2",),
        ("breakpoint 1:", "its condition does not hold here"),
    ]
    return "of other moves", lines, wanted


# ---- three faults that are found by a condition, in six commands at most

WRAPS = b"""uniform int table[300];
uniform int round = 0;
export void go() {
    int8 at = 90;
    int sum = 0;
    while (round < 60) {
        sum += table[at];
        at += programIndex + 1;
        round += 1;
    }
}
"""


def of_wraps(width):
    """An int8 index that wraps: from the fault back to the last round in which it is large and right."""
    at = lambda number, lane: 90 + number * (lane + 1)
    wrong = first(lambda number: at(number, width - 1) > 127)
    lane = next(it for it in range(width) if at(wrong, it) > 127)
    values = [str(at(wrong, it) - (256 if at(wrong, it) > 127 else 0)) for it in range(width)]
    # (a number of four characters stands among them, so a row has eight)
    told = f" {' '.join(values)}" if width <= 8 else "".join(f"\n[{it}] {' '.join(values[it : it + 8])}" for it in range(0, width, 8))
    lines = ["run", "print at", "break 8 if at > 110", "reverse-continue", "print round"]
    wanted = [
        ("F2 Index", f"in lane {lane}"),
        (f"at ={told}\n",),
        ("breakpoint 1 at line 8",),
        ("breakpoint 1:", lanes(width, lambda lane: at(wrong - 1, lane) > 110)),
        (f"round = {wrong - 1}",),
    ]
    return "find an index that wraps", lines, wanted, WRAPS


SORTS = b"""uniform int a[17];
uniform int sorted = 0;
export void go() {
    a[programIndex] = programCount - programIndex;
    uniform int round = 0;
    while (round < programCount - 1) {
        int left = 2 * programIndex + round % 2;
        if (left + 1 < programCount) {
            int low = a[left];
            int high = a[left + 1];
            if (low > high) {
                a[left] = high;
                a[left + 1] = low;
            }
        }
        round += 1;
    }
    sorted = 1;
}
"""


def of_sorts(width):
    """A sort of neighbours with one round too few: where two of them stand in the wrong order at its end."""
    a = list(range(width, 0, -1))
    for number in range(width - 1):
        for left in range(number % 2, width - 1, 2):
            a[left : left + 2] = sorted(a[left : left + 2])
    wrong = [lane for lane in range(width - 1) if a[lane] > a[lane + 1]]
    lines = ["break 18 if programIndex + 1 < programCount && a[programIndex] > a[programIndex + 1]", "run", f"print a[{wrong[0]}]", f"print a[{wrong[0] + 1}]", "print round"]
    wanted = [
        ("breakpoint 1 at line 18",),
        ("breakpoint 1:", lanes(width, lambda lane: lane in wrong)),
        (f"a[{wrong[0]}] = {a[wrong[0]]}",),
        (f"a[{wrong[0] + 1}] = {a[wrong[0] + 1]}",),
        (f"round = {width - 1}",),
    ]
    return "find a round too few", lines, wanted, SORTS


ORBITS = b"""export void go() {
    int c = programIndex * 4;
    if (programIndex == 3) {
        c = 256;
    }
    int z = 0;
    uniform int n = 0;
    while (n < 20) {
        z = z * z / 256 + c;
        n += 1;
    }
}
"""


def of_orbits(width):
    """A square of fixed-point numbers that overflows in one lane."""
    z, number = [0] * width, 0
    while max(z) <= 46340:
        z, number = [it * it // 256 + (256 if lane == 3 else 4 * lane) for lane, it in enumerate(z)], number + 1
    lines = ["break 9 if z > 46340", "run", "print n", "print z[3]"]
    wanted = [
        ("breakpoint 1 at line 9",),
        ("breakpoint 1:", lanes(width, lambda lane: z[lane] > 46340), passed(number)),
        (f"n = {number}",),
        (f"z[3] = {z[3]}",),
    ]
    return "find a square that overflows", lines, wanted, ORBITS


def judged(wanted):
    """What is wrong with the answers, of which each has these texts, and none that stands behind `!`."""

    def judge(text):
        answers = text.decode().split("----\n")[1:-1]
        why = [] if len(answers) == len(wanted) else [f"{len(answers)} answers, and {len(wanted)} are wanted"]
        for number, (answer, texts) in enumerate(zip(answers, wanted), 1):
            why += [f"answer {number} has no {it!r}:" for it in texts if not it.startswith("!") and it not in answer]
            why += [f"answer {number} has {it[1:]!r}:" for it in texts if it.startswith("!") and it[1:] in answer]
        return why + shown(text) if why else []

    return judge


def runs():
    found = []
    for width in WIDTHS:
        for part in (of_lanes, of_counts, of_faults, of_watches, of_runs, of_moves, of_refusals, of_wraps, of_sorts, of_orbits):
            name, lines, wanted, source = (*part(width), SOURCE)[:4]
            typed = f"{MARK}\n" + "".join(f"{line}\n{MARK}\n" for line in lines)
            found.append(Run(f"conditions {name}, {width} lanes", typed.encode(), ["debug", NAME, "--width", str(width)], judged(wanted), b"", data={NAME: source}))
    return found


# A loop of ten moves a round, whose first round begins at step 2 with the test and comes to its line at step 3.
LONG = b"""uniform int total = 0;
export void go() {
    int x = 0;
    uniform int i = 0;
    while (i < 20000) {
        x = i + programIndex;
        total += 1;
        total += 1;
        total += 1;
        total += 1;
        total += 1;
        total += 1;
        total += 1;
        i += 1;
    }
}
"""
PIECE, PIECES, CLEARED = 10_000, 2, "\r                \r"


def results(program):
    """A long `continue` with a condition on a terminal: behind each 10,000 stops that are passed it shows how many moves it has made."""
    ours, theirs = os.openpty()
    tty.setraw(theirs)
    with tempfile.TemporaryDirectory(prefix="passed-") as folder:
        pathlib.Path(folder, NAME).write_bytes(LONG)
        with subprocess.Popen([program, "debug", NAME], cwd=folder, env={}, stdin=subprocess.PIPE, stdout=theirs) as process:
            os.close(theirs)
            process.stdin.write(b"break 6 if x < 0\ncontinue\n")
            process.stdin.close()
            text = all_of(ours)
    os.close(ours)
    # The last of so many stops stands at step 3 of the first round and ten more for each round behind it.
    progress = "".join(f"\r{3 + 10 * (number * PIECE - 1):,} moves" for number in range(1, PIECES + 1))
    wanted = [f"1 stops only if x < 0\n{progress}{CLEARED}the program has ended", passed(PIECE * PIECES)]
    why = [f"there is no {it!r}:" for it in wanted if it not in text.decode()] + ([f"status {process.returncode}"] if process.returncode else [])
    return [Result("a long continue with a condition shows its progress on a terminal", not why, why + shown(text) if why else [])]
