"""Watches of what sets a variable at the prompt, `watch -w`, at 8 and 16 lanes, on and back: of a function and of the file, by a statement, by
a call that returns, by an assignment that changes nothing, by lanes of a `foreach`; of an array and an element, by whatever name and index; with
a condition; and what is not watched so.

What is set where is worked out here by hand.
"""

from .conditions import MARK, judged
from .tried import Run

WIDTHS = (8, 16)
NAME = "written.ispc"
SOURCE = b"""uniform int total = 0;
uniform int table[4];
int twice(int by) {
    total = total;
    return by + by;
}
export void go() {
    int x = 5;
    uniform int i = 0;
    while (i < 2) {
        x = 5;
        x = twice(x);
        total = 0;
        i += 1;
    }
    x += 0;
    foreach (k = 0 ... 4) {
        x = 10;
    }
    total = 1;
}
"""
ARRAYS = b"""uniform int table[6];
uniform int other[6];
void fill(uniform int part[], uniform int by) {
    part[1] = by;
    part[0] = 5;
}
export void go(uniform int out[], uniform int from) {
    uniform int i = 2;
    table[i] = 0;
    i = 4;
    table[programIndex % 2 + i] = 9;
    fill(&table[1], 7);
    fill(&out[from], 8);
    other[2] = 3;
    table[2] += 0;
    if (programIndex < 2) {
        packed_store_active(&table[2], programIndex + 8);
    }
    if (programIndex == 1) {
        table[programIndex + 1] = 1;
    }
    i = table[2];
}
"""
GIVEN_NAME = "written.input"
GIVEN = b"out = 1 2 3 4\nfrom = 2\n"
# Where the element 2 of `table` is set: the line, whether in the callee, and what it is then.
ELEMENT = ((9, 1, 0), (4, 2, 7), (15, 1, 7), (17, 1, 8), (20, 1, 1))
# The same of any element of `table`, with all of them.
TABLE = (
    (9, 1, "0 0 0 0 0 0"),
    (11, 1, "0 0 0 0 9 9"),
    (4, 2, "0 0 7 0 9 9"),
    (5, 2, "0 5 7 0 9 9"),
    (15, 1, "0 5 7 0 9 9"),
    (17, 1, "0 5 8 9 9 9"),
    (20, 1, "0 5 1 9 9 9"),
)
# Where the element 3 of `out` is set, which the callee has as the element 1 of its parameter.
OUT = ((4, 2, 8),)
# What `x` shows behind each statement that sets it from the loop on.
BEHIND = (5, 10, 5, 10, 10, 10)


def of_locals(width):
    """Each statement that sets a local stops, on and back, also where it sets what was there; its declaration too."""
    lines, wanted = ["break 10", "run", "delete 1", "watch -w x", "info watchpoints"], [("breakpoint 1 at line 10",), ("breakpoint 1:",), ("deleted 1",), ("watch 2: what sets x, while this frame is there\n",), ("2  watch, what sets x, of the frame at depth 1\n",)]
    for word in BEHIND:
        lines, wanted = [*lines, "continue", f"print x[{width - 1}]"], [*wanted, ("watch 2:", f"  x = {word} {word}"), (f"x[{width - 1}] = {word}\n",)]
    lines, wanted = [*lines, "continue"], [*wanted, ("the program has ended",)]
    for word in (10, 10, 5, 10, 5, 5):
        lines, wanted = [*lines, "reverse-continue"], [*wanted, ("watch 2:", f"  x = {word} {word}")]
    lines, wanted = [*lines, "reverse-continue", "reverse-continue"], [*wanted, ("watch 2:", ":8:", "!  x = "), ("C3 NoHistory",)]
    return "a local", lines, wanted


def of_the_file(width):
    """A variable of the file is set in each frame, and its watch ends with none."""
    lines, wanted = ["watch -w total", "info watchpoints", "break 10", "run", "delete 2"], [("watch 1: what sets total\n",), ("1  watch, what sets total\n",), ("breakpoint 2 at line 10",), ("breakpoint 2:",), ("deleted 2",)]
    for depth, line, word in ((2, 5, 0), (1, 14, 0), (2, 5, 0), (1, 14, 0), (1, 21, 1)):
        lines = [*lines, "continue", "backtrace"]
        wanted = [*wanted, ("watch 1:", f":{line}:", f"  total = {word}\n"), ("twice", "go") if depth == 2 else ("!twice", "go")]
    lines, wanted = [*lines, "continue", "reverse-continue", "print total", "run", "continue"], [*wanted, ("the program has ended",), ("watch 1:", ":20:"), ("total = 0",), ("The program begins anew", "watch 1:"), ("watch 1:",)]
    return "a variable of the file", lines, wanted


def of_conditions(width):
    """With a condition, a count and lines; disabled it stops nothing."""
    lines = ["break 10", "run", "delete 1", "watch -w x if i == 1", "continue", "print i", "disable 2", "enable 2", "continue", "continue", "ignore 2 1", "delete 2", "continue"]
    wanted = [
        ("breakpoint 1 at line 10",),
        ("breakpoint 1:",),
        ("deleted 1",),
        ("watch 2: what sets x", "2 stops only if i == 1"),
        ("watch 2:", "  x = 5 5"),
        ("i = 1",),
        ("",),
        ("",),
        ("watch 2:", "  x = 10 10"),
        ("the program has ended",),
        ("2: 1 stop will be passed",),
        ("deleted 2",),
        ("",),
    ]
    return "with a condition", lines, wanted


def there_and_back(name, places, shown, told):
    """A watch of what sets something: each stop on, by its line behind the setting one, and going back the setting line itself."""
    lines, wanted = ["watch -w " + name, "info watchpoints"], [("watch 1: what sets " + name,), ("1  watch, what sets " + name + told,)]
    for line, depth, word in places:
        lines = [*lines, "continue", "backtrace"]
        wanted = [*wanted, ("watch 1:", f"  {shown} = {word}\n"), ("fill", "go") if depth == 2 else ("!fill", "go")]
    lines, wanted = [*lines, "continue"], [*wanted, ("the program has ended",)]
    for line, depth, word in reversed(places):
        lines, wanted = [*lines, "reverse-continue"], [*wanted, ("watch 1:", f":{line}:")]
    return [*lines, "reverse-continue"], [*wanted, ("the history goes back no further", ":8:")]


def of_elements(width):
    """A step that stores to an element stops, by whatever name and index, whether the element changes or not; one that stores beside it does not."""
    lines, wanted = there_and_back("table[2]", ELEMENT, "table[2]", "\n")
    return "an element", lines, wanted, ARRAYS


def of_arrays(width):
    """The same of all elements of an array."""
    lines, wanted = there_and_back("table", TABLE, "table", "\n")
    return "an array", lines, wanted, ARRAYS


def of_given_arrays(width):
    """An element of an array that the entry is given, which a callee has under another name and number."""
    lines, wanted = there_and_back("out[3]", OUT, "out[3]", ", of the frame at depth 1\n")
    return "an element of a parameter", lines, wanted, ARRAYS


def of_callees(width):
    """An element of a callee's parameter, while its frame is there: the second call has another part."""
    lines = ["break 5", "run", "watch -w part[0]", "continue", "continue", "watch -w part[1]", "delete 1", "continue", "watch -w table[1] if table[1] > 5", "watch -w table[0]", "reverse-continue", "print table[1]"]
    wanted = [
        ("breakpoint 1 at line 5",),
        ("breakpoint 1:", ":5:"),
        ("watch 2: what sets part[0], while this frame is there\n",),
        ("watch 2:", "  part[0] = 5\n"),
        ("watch 2 of what sets part[0] ends: its frame has been left\n",),
        ("`watch -w NAME` stops",),
        ("deleted 1",),
        ("the program has ended",),
        ("watch 3: what sets table[1]", "3 stops only if table[1] > 5"),
        ("watch 4: what sets table[0]\n",),
        ("the history goes back no further", ":8:"),
        ("table[1] = 0\n",),
    ]
    return "an element of a callee's parameter", lines, wanted, ARRAYS


def of_others(width):
    """A watch of the value stops at none of what changes nothing; lanes, elements that are not there and other names are not watched so, and `-w` alone is an expression."""
    lines = ["break 10", "run", "delete 1", "watch x", "continue", "delete 2", "watch -w table[4]", "watch -w nobody", "watch -w x[0]", "watch -w", "watch -w x", *["watch -w i"] * 16]
    wanted = [
        ("breakpoint 1 at line 10",),
        ("breakpoint 1:",),
        ("deleted 1",),
        ("watch 2: x",),
        ("watch 2:", "x = 5 5", "10 10"),
        ("deleted 2",),
        ("`watch -w NAME` stops",),
        ("`watch -w NAME` stops",),
        ("`watch -w NAME` stops",),
        ("S5",),
        ("watch 3: what sets x",),
        *[(f"watch {number}: what sets i",) for number in range(4, 19)],
        ("C11 TableFull",),
    ]
    return "beside others", lines, wanted


def runs():
    found = []
    for width in WIDTHS:
        for part in (of_locals, of_the_file, of_conditions, of_others, of_elements, of_arrays, of_given_arrays, of_callees):
            name, lines, wanted, *other = part(width)
            typed = f"{MARK}\n" + "".join(f"{line}\n{MARK}\n" for line in lines)
            words, data = ["debug", NAME, "--width", str(width)], {NAME: other[0] if other else SOURCE}
            if other:
                words, data = [*words, "--input", GIVEN_NAME], {**data, GIVEN_NAME: GIVEN}
            found.append(Run(f"watches of what sets {name}, {width} lanes", typed.encode(), words, judged(wanted), b"", data=data))
    return found
