"""Indices at the prompt that are just past the last lane or element, and the last ones, at 4, 8 and 16 lanes: in the top frame and in an outer one.

A refusal tells how many there are, by what the source declares, and has its mark under what is refused.
"""

from .conditions import MARK, judged
from .tried import Run

WIDTHS = (4, 8, 16)
NAME = "past.ispc"
ELEMENTS = 5
SOURCE = b"""uniform int8 table[5];
int total = 7;
int scaled(int by, uniform int64 row[]) {
    uniform int factor = 3;
    int8 v = by * factor;
    row[4] = 9;
    return v;
}
uniform int64 rows[7];
export void go() {
    int16 x = programIndex - 2;
    table[4] = -3;
    int y = scaled(x, &rows[2]);
    total = y;
}
"""


def marked(line, part):
    """A refused line, and the mark under its part."""
    return f"    {line}\n    {' ' * line.rindex(part)}^\n"


def past(name, count, what):
    return f"C8 OutOfRange: {name} has {count} {what}, and the first has the number 0.\n"


def refusals(name, count, what, words):
    """Lines that are refused for the index behind the last one, and a far one, and what is told."""
    found = []
    for word in words:
        for index in (count, 99):
            line = word.replace("T", f"{name}[{index}]")
            found.append((line, (past(name, count, what) + marked(line, name),)))
    return found


def rows(width):
    """Each line with what it is answered, in the frame of `scaled`, and then in that of `go`."""
    last, looks, sets = width - 1, ("print T", "watch T", "changes T", "last T"), ("set var T = 1",)
    found = [("break 7", ("breakpoint 1 at line 7",)), ("run", ("breakpoint 1:",))]
    found += [(f"print v[{last}]", (f"v[{last}] = {(last - 2) * 3}\n",)), ("print row[4]", ("row[4] = 9\n",)), ("print table[4]", ("table[4] = -3\n",))]
    found += refusals("v", width, "lanes", looks + sets) + refusals("by", width, "lanes", looks + sets)
    # The parameter stands for the last five of seven elements.
    found += refusals("row", ELEMENTS, "elements", looks + sets) + refusals("table", ELEMENTS, "elements", ("print T", "watch T", *sets))
    found += refusals("total", width, "lanes", ("print T", "watch T", *sets)) + refusals("rows", 7, "elements", ("print T", *sets))
    found += [("up", ("#1  go at",)), (f"print x[{last}]", (f"x[{last}] = {last - 2}\n",)), *refusals("x", width, "lanes", sets)]
    return [*found, (f"print x[{width}]", ("C8 OutOfRange: ", marked(f"print x[{width}]", "x[")))]


def without_parts(width):
    """One value has no parts, and an array is none."""
    one = lambda line, name: (line, (f"C2 NoSuchName: {name} is one value for all lanes, and has no parts.\n" + marked(line, name),))
    whole = lambda line: (line, ("C2 NoSuchName: row is an array: name one element, as `row[0]`.\n" + marked(line, "row"),))
    lines = ("print factor[0]", "watch factor[0]", "changes factor[1]", "set var factor[0] = 1")
    found = [("break 7", ("breakpoint 1 at line 7",)), ("run", ("breakpoint 1:",)), *(one(line, "factor") for line in lines)]
    return found + [whole(line) for line in ("watch row", "changes row", "set var row = 1")]


def runs():
    found = []
    for width in WIDTHS:
        for name, part in (("indices past the end", rows), ("parts that are not there", without_parts)):
            asked = part(width)
            typed = f"{MARK}\n" + "".join(f"{line}\n{MARK}\n" for line, _ in asked)
            words = ["debug", NAME, "--width", str(width)]
            found.append(Run(f"{name}, {width} lanes", typed.encode(), words, judged([texts for _, texts in asked]), b"", data={NAME: SOURCE}))
    return found
