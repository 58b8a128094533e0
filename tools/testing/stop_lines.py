"""Lines of breakpoints and watches at the prompt, at 4, 8 and 16 lanes, on and back: what `commands` lists is done when one has stopped a move,
before the next line is read; in a recursion of depth 3, with conditions, watches, ranges and lists within lists, and at the list's ends.

What is shown in which round is worked out here by arithmetic.
"""

from . import terminals, watching
from .conditions import MARK, NAME, ROUNDS, SOURCE, SUM, WIDTHS, judged, lanes, passed
from .tried import Result, Run, differences

ENDED, AT_START = "the program has ended", "the history goes back no further"
LONG, FULL = "a line of a list has at most 256 bytes", "128 lines of breakpoints and watches are there"
UNENDED = b"The input ends within a list, before its line `end`.\n"
# Behind the sum of a round stands the line of its end.
BEHIND = SUM + 1


def listed(head, *lines):
    """A list as it is typed."""
    return "\n".join([head, *lines, "end"])


def of_stops(width):
    """The lines of what stopped a move are done, on and back, and those of its neighbour are not; none take them away, others replace them."""
    most = width - 1
    lines = [
        f"break {BEHIND}", f"break {SUM}", listed("commands 1", "p i", f"  p x[{most}]"), listed("commands", "p total"), "info breakpoints",
        "continue", "continue", "continue", "rc", "rc",
    ]
    wanted = [
        ("breakpoint 1",),
        ("breakpoint 2",),
        ("lines for 1, up to a line `end`:\n", "!i = "),
        ("lines for 2, up to a line `end`:\n",),
        (f"1 does, when it has stopped a move:\n    p i\n      p x[{most}]\n2 does, when it has stopped a move:\n    p total\n",),
        ("breakpoint 2:", "\ntotal = 0\n", "!\ni = "),
        ("breakpoint 1:", f"\ni = 0\nx[{most}] = 0\n", "!\ntotal = 2\n"),
        ("breakpoint 2:", "\ntotal = 2\n", "!\ni = "),
        ("breakpoint 1:", "\ni = 0\n"),
        ("breakpoint 2:", "\ntotal = 0\n"),
    ]
    lines += [listed("commands 1"), listed("commands 2", "echo other"), "info b", "continue", "continue", "step", "goto 3", "run"]
    wanted += [
        ("lines for 1",),
        ("lines for 2",),
        ("2 does, when it has stopped a move:\n    echo other\n", "!1 does", "!p total"),
        ("breakpoint 1:", "!\ni = ", "!other"),
        ("breakpoint 2:", "other\n"),
        ("!other", "!breakpoint"),
        ("!other", "!breakpoint"),
        ("The program begins anew", "breakpoint 2:", "other\n"),
    ]
    return "of stops", lines, wanted


def of_moves(width):
    """Where a line moves the program, the rest is dropped, and the lines are done of what stopped that move."""
    lines = [f"b {SUM}", f"b {BEHIND}", listed("commands 1", "p i", "continue", "echo dropped"), listed("commands 2", "p total"), "continue", "continue", "delete 2", "continue"]
    wanted = [
        ("breakpoint 1",),
        ("breakpoint 2",),
        ("lines for 1",),
        ("lines for 2",),
        ("breakpoint 1:", "\ni = 0\n", "breakpoint 2:", "\ntotal = 2\n", "!dropped"),
        ("breakpoint 1:", "\ni = 1\n", "breakpoint 2:", "\ntotal = 4\n", "!dropped"),
        ("deleted 2",),
        # It goes on by itself, round by round, to the end.
        ("breakpoint 1:", "\ni = 2\n", f"\ni = {ROUNDS - 1}\n", ENDED, "!dropped"),
    ]
    lines += [
        listed("commands 1", "p i", "reverse-continue"), "reverse-continue", listed("commands 1", "next", "echo dropped"), "continue",
        listed("commands 1", "goto 0", "p total", "echo dropped"), "continue",
    ]
    wanted += [
        ("lines for 1",),
        ("breakpoint 1:", f"\ni = {ROUNDS - 1}\n", "\ni = 0\n", AT_START),
        ("lines for 1",),
        ("breakpoint 1:", f"go at {NAME}:{BEHIND}:", "!dropped"),
        ("lines for 1",),
        ("breakpoint 1:", "step 0, lanes", "!dropped", "!\ntotal = "),
    ]
    return "that move", lines, wanted


def of_kinds(width):
    """Conditions, a temporary breakpoint, watches of the file and of a function, and one that its own lines delete."""
    lines = [f"tbreak {SUM} if i == 3", listed("commands", "p i", "info breakpoints"), "continue", f"b {BEHIND} if i % 10 == 5", listed("commands", "p i", "continue"), "run", "delete"]
    wanted = [
        ("breakpoint 1",),
        ("lines for 1",),
        ("breakpoint 1:", lanes(width, lambda lane: True), passed(3), "\ni = 3\nno breakpoints or watches\n"),
        ("breakpoint 2",),
        ("lines for 2",),
        ("breakpoint 2:", "\ni = 5\n", "\ni = 95\n", "!\ni = 6\n", ENDED),
        ("all breakpoints and watches are deleted",),
    ]
    lines += [
        "watch total", listed("commands", "p total"), "info watchpoints", "start", "continue", "reverse-continue", "d", f"b {SUM}", "run", "watch i",
        listed("commands", "p i"), "info watchpoints", "delete 4", "continue", "disable 5", "delete 5", f"b {SUM}",
        listed("commands", "delete 6", "p i", "info b"), "continue", "continue",
    ]
    wanted += [
        ("watch 3: total",),
        ("lines for 3",),
        ("3  watch", "3 does, when it has stopped a move:\n    p total\n"),
        ("The program begins anew",),
        ("watch 3:", "\ntotal = 2\n"),
        ("watch 3:", "\ntotal = 0\n"),
        ("all breakpoints",),
        ("breakpoint 4",),
        ("The program begins anew", "breakpoint 4:"),
        ("watch 5: i",),
        ("lines for 5",),
        ("5  watch, i", "5 does, when it has stopped a move:\n    p i\n"),
        ("deleted 4",),
        ("watch 5:", "\ni = 1\n"),
        ("disabled 5",),
        ("deleted 5",),
        ("breakpoint 6",),
        ("lines for 6",),
        ("breakpoint 6:", "deleted 6\ni = 1\nno breakpoints or watches\n"),
        (ENDED,),
    ]
    return "of kinds", lines, wanted


def of_lists(width):
    """A range, a list within a list, an empty line, and an empty line behind lines that were done, which repeats what was typed."""
    lines = [
        f"b {SUM}", f"b {BEHIND}", listed("commands 1-2 7", "echo both", "p i", ""), "continue", "continue",
        listed("commands 1", "commands 2", "echo inner", "end", "echo outer"), "info b", "continue", "continue",
    ]
    wanted = [
        ("breakpoint 1",),
        ("breakpoint 2",),
        ("No breakpoint number 7.\nlines for 1, 2, up to a line `end`:\n",),
        ("breakpoint 1:", "both\ni = 0\n", "!i = 0\ni = 0\n"),
        ("breakpoint 2:", "both\ni = 0\n"),
        ("lines for 1,", "!lines for 2"),
        ("1 does, when it has stopped a move:\n    commands 2\n    echo inner\n    end\n    echo outer\n2 does, when it has stopped a move:\n    echo both\n",),
        ("breakpoint 1:", "lines for 2, up to a line `end`:\nouter\n", "!inner"),
        ("breakpoint 2:", "inner\n", "!both"),
    ]
    lines += ["delete 1", listed("commands 2", "p i"), "continue\n\n", "p total\n" + listed("commands 2") + "\n"]
    wanted += [
        ("deleted 1",),
        ("lines for 2",),
        ("\ni = 2\n", "\ni = 3\n", "\ni = 4\n", "!\ni = 5\n"),
        ("total = 10\nlines for 2, up to a line `end`:\n", "!`end`:\ntotal"),
    ]
    return "of lists", lines, wanted


def of_refusals(width):
    """Lines that list nothing, those that are left out of a list, and those that quit nothing there."""
    lines = [
        "commands", f"b {SUM}", "commands 7", "commands x", "commands 1 if", "commands 1-",
        listed("commands 1", "p 1" + 127 * "+1", "p 1" + 126 * "+1" + " ", "silent", "quit"), "info b", listed("commands 1", *130 * ["p i"]),
        "info b", "commands 2-3", "end", "silent",
    ]
    usage = ("C1 BadCommand", "`commands N` is followed by lines")
    wanted = [
        ("no breakpoints or watches",),
        ("breakpoint 1",),
        ("No breakpoint number 7.\n", "!lines for"),
        *[usage] * 3,
        ("lines for 1", LONG, "`silent` is left out"),
        ("    p 1" + 126 * "+1" + " \n    quit\n", "!silent"),
        (FULL,),
        (128 * "    p i\n", "!" + 129 * "    p i\n"),
        ("No breakpoint numbers 2-3.\n",),
        ("C1 BadCommand",),
        ("C1 BadCommand",),
    ]
    return "refused", lines, wanted


def of_depths(width):
    """In a recursion, in each of its three frames, by the values of a lane."""
    lane = width - 1
    front = watching.last(width)[lane] - 3
    shown = [front - lane]
    while len(shown) < 3:
        shown.append(front + shown[-1] - lane)
    lines = ["break 11", listed("commands", "p n", f"p v[{lane}]", "continue"), "run", listed("commands", "info args", "reverse-continue"), "reverse-continue"]
    wanted = [
        ("breakpoint 1 at line 11",),
        ("lines for 1",),
        (*(f"\nn = {number}\nv[{lane}] = {it}\n" for number, it in enumerate(shown)), ENDED),
        ("lines for 1",),
        ("\nn = 2\n", "\nn = 1\n", "\nn = 0\n", AT_START),
    ]
    return "at depth 3", lines, wanted, watching.SOURCE


def runs():
    found = []
    for width in WIDTHS:
        for part in (of_stops, of_moves, of_kinds, of_lists, of_refusals, of_depths):
            name, lines, wanted, source = (*part(width), SOURCE)[:4]
            typed = f"{MARK}\n" + "".join(f"{line}\n{MARK}\n" for line in lines)
            found.append(Run(f"lines of stops: {name}, {width} lanes", typed.encode(), ["debug", NAME, "--width", str(width)], judged(wanted), b"", data={NAME: source}))
    ends = lambda wanted: lambda text: [] if text.endswith(wanted) else differences("the end", text[-200:], wanted)
    data = {NAME: SOURCE}
    head = f"b {SUM}\ncommands\np i\n".encode()
    found.append(Run("lines of stops: the input ends in a list", head, ["debug", NAME], ends(b"lines for 1, up to a line `end`:\n" + UNENDED), b"", data=data))
    found.append(Run("lines of stops: a list quits", head + b"quit\nend\ncontinue\necho more\n", ["debug", NAME], ends(b"\ni = 0\n"), b"", data=data))
    return found


def results(built):
    """A list on a terminal, where `>` stands before each of its lines. What comes before the first prompt is not looked at."""
    prompt = terminals.PROMPT
    text = terminals.typed(built, SOURCE, b"b %d\ncommands\necho here\nend\necho there\n" % SUM, {}, is_both=True)
    came = text.partition(prompt)[2].rstrip(b"\n")
    wanted = b"breakpoint 1 at line %d\n" % SUM + prompt + b"lines for 1, up to a line `end`:\n>>" + prompt + b"there\n" + prompt
    return [Result("lines of stops: a list on a terminal", came == wanted, differences("the terminal", came, wanted))]
