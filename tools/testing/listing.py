"""Which functions `info functions` lists, and how many lines `list` shows: both are worked out here from the source's lines; and which of its bytes
`list` shows as they are: all but the last ones of control characters, as Unicode has them.
"""

import unicodedata

from .tried import Run, shown

FILE, GIVEN = "listing.ispc", "listing.input"
HEADS = {
    "negated": "static inline int negated(int x)",
    "less": "bool less(varying int8 a, uniform int b)",
    "parted": "void parted(uniform int table[],",
    "one": "int one()",
    "two": "int two(int n)",
    "go": "export void go(uniform int n)",
}
SOURCE = """uniform int table[4];
static inline int negated(int x) { return -x; }

bool less(varying int8 a, uniform int b)
{
    return a < b;
}

void parted(uniform int table[],
            int n) {
    table[0] = reduce_add(n);
}
int one() { return 1; } int two(int n) { return n + one_more; }
export void go(uniform int n) {
    int x = negated(programIndex);
    x = two(x);
    bool is_less = less((int8)x, n);
    int all = one();
    x += all;
    parted(table, x);
}
""".replace("n + one_more", "n + 1")
TEXT = SOURCE.splitlines()
LINE = next(at for at, line in enumerate(TEXT, 1) if "x = two(x)" in line)  # where the program stands


def heads(part=""):
    """A line for each function whose name has the part."""
    number = lambda head: next(at for at, line in enumerate(TEXT, 1) if head in line)
    return [f"{number(head)}: {head}" for name, head in HEADS.items() if part in name] or ["no function"]


def lines(first, end):
    """The lines from one on up to another, with an arrow at the place."""
    return [f"{'-> ' if at == LINE else '   '}{at:5}  {TEXT[at - 1]}" for at in range(max(first, 1), min(end, len(TEXT) + 1))]


def asks(name, typed, wanted, width):
    last = "".join(f"{line}\n" for line in ["----", *wanted]).encode()
    typed = "".join(f"{line}\n" for line in [f"break {LINE}", "run", "echo ----", *typed]).encode()

    def judge(text):
        return [] if text.endswith(last) else ["this is wanted at the end:", *shown(last), "it came:", *shown(text[-len(last) - 300 :])]

    return Run(name, typed, ["debug", FILE, "--input", GIVEN, "--width", str(width)], judge, b"", data={FILE: SOURCE.encode(), GIVEN: b"n = 3\n"})


def functions(width):
    """All functions, and those with a text in their names: at its beginning, within it, at its end, or none."""
    typed, wanted = ["info functions", " i  functions "], heads() * 2
    for part in ("o", "ne", "go", "ess", "part", "twos", "(", "parted"):
        typed.append(f"info functions {part}")
        wanted += heads(part)
    return asks(f"functions that are listed at {width} lanes", typed, wanted, width)


def sizes(width):
    """Lines around, behind and before the place, so many at once, after each size that is set."""
    said = lambda size: f"Number of source lines that `list` shows is {size}."
    typed, wanted = ["show listsize"], [said(10)]
    for size in (1, 2, 3, 7, 10, 1000):
        first = max(LINE - size // 2, 1)
        typed += [f"set listsize {size}", "show listsize", "frame 0", "list", f"list {3}", "list -", "list 4,", "list ,9"]
        wanted += [said(size), *frame(width), *lines(first, first + size)]
        around = max(3 - size // 2, 1)
        wanted += lines(around, around + size)
        wanted += lines(around - size, around) if around > 1 else ["line 1 is the first one"]
        wanted += lines(4, 4 + size) + lines(10 - size, 10)
    typed += ["set listsize unlimited", "show listsize", "list 2", "set listsize 0", "set listsize 1001", "show listsize"]
    refused = "A number may follow `set listsize`, of the lines that `list` shows: 1 to 1000, or `unlimited`."
    wanted += [said("unlimited"), *lines(1, len(TEXT) + 1), refused, refused, said("unlimited")]
    return asks(f"lines that are listed at {width} lanes", typed, wanted, width)


def frame(width):
    """What `frame 0` shows here."""
    place = f"#0  go at {FILE}:{LINE}:5, lanes {'#' * width}"
    marked = [f"   {at:5}  {TEXT[at - 1]}" for at in (LINE - 2, LINE - 1)] + [f"-> {LINE:5}  {TEXT[LINE - 1]}", " " * 14 + "^"]
    return [place, *marked, *(f"   {at:5}  {TEXT[at - 1]}" for at in (LINE + 1, LINE + 2))]


# Comments with each character up to U+00FF but the line feed, and some of more bytes, and a byte that is no character behind one that may begin one.
CHARACTERS = ["".join(map(chr, [*range(10), *range(11, 128)])), "".join(map(chr, range(128, 256))), "\u2019 \u20ac \ufb9f \U0001f600"]
BYTES = [it.encode() for it in CHARACTERS] + [b"\xc3\x80\x9b \xc2 \x9f"]


def seen(character):
    is_masked = unicodedata.category(character) == "Cc" and character != "\t"
    return character.encode()[:-1] + b"?" if is_masked else character.encode()


def controls():
    """A source whose comments have all kinds of bytes."""
    source = b"".join(b"// %s\n" % it for it in BYTES) + b"export void go() { }\n"
    texts = [b"".join(map(seen, it)) for it in CHARACTERS] + BYTES[len(CHARACTERS) :]
    last = b"".join(b"   %5d  // %s\n" % row for row in enumerate(texts, 1))

    def judge(text):
        return [] if text.endswith(last) else ["this is wanted at the end:", *shown(last), "it came:", *shown(text[-len(last) :])]

    return Run("bytes of a source that are listed", b"list 1,%d\n" % len(BYTES), ["debug", FILE], judge, b"", data={FILE: source})


def runs():
    return [made(width) for width in (4, 8, 16) for made in (functions, sizes)] + [controls()]
