"""Breakpoints and watches by their numbers at the prompt, at 4, 8 and 16 lanes, on and back: `delete`, `disable` and `enable` with numbers and
ranges, with conditions and counts, of watches of the file and of functions' variables, and through `run`.

What stops in the loop of 100 rounds, and how many stops are passed before, is worked out here by arithmetic.
"""

from .conditions import MARK, NAME, ROUNDS, SOURCE, SUM, WIDTHS, judged, lanes, passed
from .tried import Run

ENDED = "the program has ended"
AT_START = "the history goes back no further"


def of_breakpoints(width):
    """What is disabled stops nothing, on and back, and its neighbour stops as before."""
    lines = [f"break {SUM}", "break 8", "continue", "disable 1", "continue", "continue", "p i", "info breakpoints", "reverse-continue", "p i"]
    wanted = [
        ("breakpoint 1 at line 7",),
        ("breakpoint 2 at line 8",),
        ("breakpoint 1:",),
        ("disabled 1\n", "!2"),
        ("breakpoint 2:",),
        ("breakpoint 2:", passed(1)),
        ("i = 1\n",),
        ("1  breakpoint, line 7\n", "2  breakpoint, line 8\n", "1 is disabled\n", "!2 is disabled"),
        ("breakpoint 2:", passed(1)),
        ("i = 0\n",),
    ]
    lines += ["enable 1", "info b", "continue", "p i", "disable", "continue", "reverse-continue", "enable", "continue", "p i"]
    wanted += [
        ("enabled 1\n",),
        ("1  breakpoint, line 7\n", "!disabled"),
        ("breakpoint 1:", "!passed"),
        ("i = 1\n",),
        ("disabled 1\ndisabled 2\n",),
        (ENDED, passed(1 + 2 * (ROUNDS - 2))),
        (AT_START, passed(2 * ROUNDS)),
        ("enabled 1\nenabled 2\n",),
        ("breakpoint 1:", "!passed"),
        ("i = 0\n",),
    ]
    return "breakpoints", lines, wanted


def of_counts(width):
    """A count is not used while its breakpoint is disabled, and a condition stays."""
    lines = [f"b {SUM} if i % 2 == 0", "ignore 1 2", "break 8 if i == 3", "disable 1", "continue", "info breakpoints", "enable 1", "continue", "p i", "continue", "p i"]
    wanted = [
        ("breakpoint 1 at line 7", "1 stops only if i % 2 == 0"),
        ("1: 2 stops will be passed",),
        ("breakpoint 2 at line 8",),
        ("disabled 1",),
        # Rounds 0 to 3 pass the line of the sum, and rounds 0 to 2 the one behind it.
        ("breakpoint 2:", lanes(width, lambda lane: True), passed(4 + 3)),
        ("1 stops only if i % 2 == 0\n1: 2 stops will be passed\n1 is disabled\n", "2 stops only if i == 3"),
        ("enabled 1",),
        # Rounds 4 and 6 are passed for the count, 5 and 7 by the condition, and those of line 8 by theirs.
        ("breakpoint 1:", lanes(width, lambda lane: True), passed(4 + 4)),
        ("i = 8\n",),
        ("breakpoint 1:", lanes(width, lambda lane: True), passed(3)),
        ("i = 10\n",),
    ]
    return "conditions and counts", lines, wanted


def of_lists(width):
    """Numbers and ranges: those that are there go, and each that is not is told."""
    lines = [f"break {line}" for line in (3, 6, 7, 8, 10)]
    wanted = [(f"breakpoint {number} at line",) for number in range(1, 6)]
    lines += ["watch total", "disable 2-3 5 7", "info breakpoints", "enable 3-9", "info breakpoints", "delete 9 1 3-4", "info breakpoints", "continue", "d 3-8 12", "info b", "delete 2-2 1", "i b"]
    wanted += [
        ("watch 6: total",),
        ("No breakpoint number 7.\n", "disabled 2\ndisabled 3\ndisabled 5\n", "!disabled 4"),
        ("2 is disabled\n3 is disabled\n5 is disabled\n", "!1 is", "!4 is", "!6 is"),
        ("No breakpoint numbers 7-9.\n", "enabled 3\nenabled 4\nenabled 5\nenabled 6\n"),
        ("2 is disabled\n", "!3 is", "!5 is"),
        ("No breakpoint number 9.\n", "deleted 1\ndeleted 3\ndeleted 4\n", "!deleted 2"),
        ("2  breakpoint, line 6\n5  breakpoint, line 10\n6  watch", "!line 3", "!line 7", "!line 8"),
        ("watch 6:", "total = 0 -> 2", passed(1)),
        ("No breakpoint numbers 3-4.\n", "No breakpoint numbers 7-8.\n", "No breakpoint number 12.\n", "deleted 5\ndeleted 6\n"),
        ("2  breakpoint, line 6\n", "!5 ", "!watch"),
        ("No breakpoint number 1.\n", "deleted 2\n"),
        ("no breakpoints or watches",),
    ]
    return "numbers and ranges", lines, wanted


def of_watches(width):
    """A watch of the file, and one of a function's variable."""
    lines = ["watch total", "disable 1", "continue", "reverse-continue", "enable 1", "continue", "p total", "info watchpoints", "disable", "info watchpoints"]
    wanted = [
        ("watch 1: total",),
        ("disabled 1",),
        (ENDED, passed(ROUNDS + 1)),
        (AT_START, passed(ROUNDS + 1)),
        ("enabled 1",),
        ("watch 1:",),
        ("total = 2\n",),
        ("1  watch", "!disabled"),
        ("disabled 1\n",),
        ("1  watch", "1 is disabled\n"),
    ]
    # `x` changes in line 6 of round 1 and of each later one.
    lines += ["break 6", "continue", "watch x", "p i", "disable 2 3", "info watchpoints", "enable 3", "continue", "p i", "disable 3", "en 2", "continue", "p i", "rc", "p i", "dis 2", "continue"]
    wanted += [
        ("breakpoint 2 at line 6",),
        ("breakpoint 2:",),
        ("watch 3: x",),
        ("i = 1\n",),
        ("disabled 2\ndisabled 3\n",),
        ("1 is disabled\n", "3  watch, x, of the frame at depth 1\n3 is disabled\n"),
        ("enabled 3\n",),
        ("watch 3:",),
        ("i = 1\n",),
        ("disabled 3\n",),
        ("enabled 2\n",),
        ("breakpoint 2:",),
        ("i = 2\n",),
        ("breakpoint 2:",),
        ("i = 1\n",),
        ("disabled 2\n",),
        (ENDED,),
    ]
    return "watches", lines, wanted


def of_runs(width):
    """`run` keeps what is disabled, also where it would stop at once, and one that is deleted takes it along."""
    lines = ["break 3", "tbreak 8", f"break {SUM} if x > 70", "disable 1-2", "run", "info breakpoints", "run", "disable 3", "run", "info breakpoints", "delete 1-3", "break 3", "info breakpoints", "run"]
    on = next(number for number in range(ROUNDS) if number * (width - 1) > 70)
    wanted = [
        ("breakpoint 1 at line 3",),
        ("breakpoint 2 at line 8",),
        ("breakpoint 3 at line 7",),
        ("disabled 1\ndisabled 2\n",),
        ("breakpoint 3:", lanes(width, lambda lane: on * lane > 70), passed(2 * on)),
        ("1 is disabled\n2 is disabled\n", "!3 is"),
        ("The program begins anew", "breakpoint 3:", lanes(width, lambda lane: on * lane > 70), passed(2 * on)),
        ("disabled 3\n",),
        ("The program begins anew", ENDED, passed(2 * ROUNDS)),
        ("1 is disabled\n2 is disabled\n3 stops only if x > 70\n3 is disabled\n",),
        ("deleted 1\ndeleted 2\ndeleted 3\n",),
        ("breakpoint 4 at line 3",),
        ("4  breakpoint, line 3\n", "!disabled"),
        ("The program begins anew", "breakpoint 4:"),
    ]
    return "run", lines, wanted


def of_moves(width):
    """Other moves stop at what is disabled, and say so."""
    lines = [f"break {SUM}", "watch total", "disable", "step 20", "next 9", "until 10", "enable 1", "until 10"]
    wanted = [
        ("breakpoint 1 at line 7",),
        ("watch 2: total",),
        ("disabled 1\ndisabled 2\n",),
        ("breakpoint 1:", "it is disabled"),
        ("watch 2:", "it is disabled"),
        ("breakpoint 1:", "it is disabled"),
        ("enabled 1\n",),
        ("watch 2:", "it is disabled"),
    ]
    return "other moves", lines, wanted


def of_refusals(width):
    """Lines that change nothing."""
    upside_down = ("C1 BadCommand", "Numbers and ranges may follow")
    lines = ["break 3", "break 6", "disable 2", "delete 2-1", "delete 1 x", "d 1-", "d 1,2", "disable 1 2-1", "enable 2 -1", "enable once 2", "disable display 1", "disable 1x", "delete 7", "disable 7", "info breakpoints"]
    wanted = [("breakpoint 1",), ("breakpoint 2",), ("disabled 2\n",), *[upside_down] * 6, ("What is enabled stays so",), ("`undisplay N`",), upside_down]
    wanted += [("C10 NoSuchNumber",), ("No breakpoint number 7.\n",), ("1  breakpoint, line 3\n2  breakpoint, line 6\n2 is disabled\n", "!1 is disabled")]
    # A line of 256 bytes, with which the words that it stands for are longer than a command, names nothing.
    lines += ["delete" + 125 * " 1", "info breakpoints", "delete" + 124 * " 1", "info breakpoints"]
    wanted += [upside_down, ("1  breakpoint, line 3\n",), ("deleted 1\n",), ("2  breakpoint, line 6\n", "!1  breakpoint")]
    return "refused", lines, wanted


def runs():
    found = []
    for width in WIDTHS:
        for part in (of_breakpoints, of_counts, of_lists, of_watches, of_runs, of_moves, of_refusals):
            name, lines, wanted = part(width)
            typed = f"{MARK}\n" + "".join(f"{line}\n{MARK}\n" for line in lines)
            found.append(Run(f"numbers: {name}, {width} lanes", typed.encode(), ["debug", NAME, "--width", str(width)], judged(wanted), b"", data={NAME: SOURCE}))
    return found
