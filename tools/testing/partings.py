"""Where the lanes of a run part and meet again, as the steps of tools/meaning tell it, and the texts of a profile that show it.

Lanes part at a step where some of them do the next step of its frame, and others do not. They meet again at the first later step of that frame,
before it is left, that all of them do. Between lie the steps of that frame alone.
"""

import collections
import json

from .tried import Run

HEAD = b" line meets at      times steps between  source\n"

# Lanes that break off one after another, and a whole number of steps in each round: lane k leaves round k.
BREAKS = """export void go() {
    int x = programIndex;
    uniform int i = 0;
    while (true) {
        if (x <= i) break;
        ++i;
    }
    x = 1;
}
"""
# A parting inside another one, and calls: the steps of the callee lie between none of the caller's.
NESTED = """int half(int x) {
    if (x < 2)
        return x;
    x -= 1;
    return x / 2;
}
export void go() {
    int x = programIndex & 3;
    if (x < 2) {
        if (x < 1) {
            x = half(x + 2);
        }
        x += 2;
        x += 3;
    }
    x = half(x - 4);
    x = 0;
}
"""
# Recursion three deep in some lanes: each frame has its own partings, also where one of the same depth was left before. Negative numbers, and a fault
# of lanes that are apart.
DEEP = """int down(int n) {
    int less = 0;
    if (n < -1) {
        less = down(n + 1);
        if (less < programIndex % 2)
            less -= 1;
    }
    return less;
}
export void go() {
    int n = -(programIndex % 4);
    int x = down(n);
    x = down(x - 2);
    for (int8 k = -3; k < n; ++k) {
        if (k == -2) continue;
        x -= k;
    }
    switch (x % 3) {
    case 0:
        x = -7;
        break;
    case -1:
        x = 8;
    default:
        x = down(-2);
        do {
            ++x;
        } while (x < n);
    }
    if (n == -3)
        x = 5 / (n + 3);
    x = 0;
}
"""
# The nine types, each with a parting of its own at a negative number or at the largest.
TYPES = "export void go() {\n    int k = programIndex;\n    int n = 0;\n" + "".join(
    f"    {it} v{number} = ({it})({'k % 4 - 2' if it[0] != 'u' else 'k % 4'});\n    if (v{number} {'< 0' if it[0] != 'u' else '> 1'})\n        n -= 1;\n    n += {number};\n"
    for number, it in enumerate(("int8", "int16", "int", "int64", "uint8", "uint16", "uint", "uint64"))
) + "    bool b = k > 2;\n    if (b)\n        n = -n;\n    n += 9;\n}\n"


def rows_of(steps, parted):
    """By the line where lanes part and the one where they meet again, None where they do not: how often, and how many steps lie between."""
    found = collections.defaultdict(lambda: [0, 0])
    for at, (line, names, lanes, _) in enumerate(steps):
        if not parted[at]:
            continue
        between, meets_at = 0, None
        for later, others, next_lanes, _ in steps[at + 1 :]:
            if len(others) < len(names):
                break
            if len(others) == len(names):
                if lanes <= next_lanes:
                    meets_at = later
                    break
                between += 1
        row = found[line, meets_at]
        row[0], row[1] = row[0] + 1, row[1] + between
    return found


def in_order(rows):
    return sorted(rows.items(), key=lambda it: (it[0][0], it[0][1] is None, it[0][1] or 0))


def wanted_members(rows):
    return [{"line": line, "meets_at": at, "times": times, "steps_between": between} for (line, at), (times, between) in in_order(rows)]


def wanted_table(rows, source, top, end):
    """The table of partings: those first between which most steps lie."""
    lines, text = source.split("\n"), ""
    for (line, at), (times, between) in sorted(in_order(rows), key=lambda it: -it[1][1])[:top]:
        text += f"{line:5}{at or '-':>9}{times:11}{between:14}  {lines[line - 1].lstrip()[:48]}\n"
    return HEAD + (text + f"  all         {sum(it[0] for it in rows.values()):11}{sum(it[1] for it in rows.values()):14}\n" + end).encode()


def marks(rows, line, parts):
    found = (">" if any(at == line for _, at in rows) else "") + ("<" if parts else "")
    return f"{found:>2}"


def judged(wanted, key="partings"):
    return lambda text: [] if json.loads(text)[key] == wanted else [f"{json.loads(text)[key]}, and {wanted} is wanted"]


def of_breaks(width):
    """By arithmetic: in round i the lane i leaves, in the last one too, where none is left to part from. A round has the loop's test, the `if`, the
    `break` and the update; after the `if` of round i come two steps, four for each round but the last, and three for that one."""
    between = sum(2 + 4 * (width - 2 - i) + 3 for i in range(width - 1))
    return [{"line": 5, "meets_at": 8, "times": width - 1, "steps_between": between}]


def of_nested(width):
    """By arithmetic: a quarter of the lanes has x = 0, and so on. Lines 10, 11, 13 and 14 lie between line 9 and line 16, and line 11 between 10 and 13:
    what it calls is none of it. The second call is of lanes with 1 (2 less 1, halved, and 5 - 4 more), 2, -2 and -1: those below 2 return at line 3, the
    others at lines 4 and 5, and all leave it at line 6."""
    return [
        {"line": 2, "meets_at": 6, "times": 1, "steps_between": 3},
        {"line": 9, "meets_at": 16, "times": 1, "steps_between": 4},
        {"line": 10, "meets_at": 13, "times": 1, "steps_between": 1},
    ]


def known_runs():
    found = []
    for name, source, wanted in (("breaks", BREAKS, of_breaks), ("nested", NESTED, of_nested)):
        for width in (4, 8, 16):
            words = ["profile", f"{name}.ispc", "--json", "--width", str(width)]
            found.append(Run(f"partings of {name} by arithmetic, {width} lanes", b"", words, judged(wanted(width)), b"", data={f"{name}.ispc": source.encode()}))
    return found


SOURCES = {"breaks": BREAKS, "nested": NESTED, "deep_partings": DEEP, "types": TYPES}
