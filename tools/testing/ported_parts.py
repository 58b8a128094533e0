"""Parts of sources that `rinddecade port` rewrites: constant expressions that are drawn by chance, with the values that C gives them; how deep
statements may lie in each other; loops that lack parts of their heads; and comments around what moves to another place.
"""

import random
import tempfile

from .tried import Result

SEED, CONSTANTS, EACH = 31, 24, 12
# The binary operators of C by how tightly they bind.
LEVELS = (("|",), ("^",), ("&",), ("==", "!="), ("<", ">", "<=", ">="), ("<<", ">>"), ("+", "-"), ("*", "/", "%"))
UNARY = ("-", "+", "~", "!")
LEAST, MOST = -(1 << 31), (1 << 31) - 1
# So many statements may lie in each other, the body of the function among them.
NESTED = 64
# Statements that have others in them, by their beginning and their end; each is of the language, and comes out as it is.
NESTS = {
    "for": ("for (int i% = 0; i% < 1; i%++) {", "}"),
    "while": ("while (y < 1) {", "}"),
    "do": ("do {", "} while (y < 1);"),
    "if": ("if (y < 1) {", "}"),
    "else": ("if (y > 1) y = 1; else {", "}"),
    "a block": ("{", "}"),
}
# What is not of the language in it: the source is refused where it lies too deep, and else ported.
HEADS = [
    ("for (; y < 3; ) y += 2;", "y = 4 4 4 4"),
    ("for (;;) { if (y > 4) break; y += 2; }", "y = 6 6 6 6"),
    ("for (; y < 9; y += 4, x++);", "x = 4 5 6 7", "y = 12 12 12 12"),
    ("for (int k = 3; k; k--) y += k;", "y = 6 6 6 6"),
    ("for (int k = 0;; k++) { y += k; if (y > 3) break; }", "y = 6 6 6 6"),
    ("foreach (j = 1 + 1 ... 2 * 3) a[j] = j * j;", "a = 0 0 4 9 16 25 0 0"),
    ("foreach (j = 0 ... 2, k = u(2) ... 3) a[j * 3 + k] = f(j + k);", "a = 0 1 4 0 4 9 0 0"),
    ("foreach_unique (j in x % 2) { n += j * 10 + 1; }", "n = 12"),
    ("y = n = f(2) > 3 ? 5 : 6;",),
    ("uniform int b[2][2] = { { 5, 6 }, { 7, 8 } }; b[1][0] += 10; n = b[0][1] * 100 + b[1][0];", "n = 617"),
    ("uniform int b[2][3]; b[1][2] = 4; b[0][2] = 3; n = b[1][2] - b[0][2] * 10;", "n = -26"),
    ("y = x > 2 && (i < 3 || f(i) > 100);", "y = 0 0 1 0"),
    ("do { y += 2; if (y == 4) continue; x++; } while (y < 6);", "x = 3 4 5 6", "y = 6 6 6 6"),
]
# The types of C by their bits, and whether they have values below 0.
TYPES = {f"{sign}int{bits}_t": (bits, not sign) for sign in ("", "u") for bits in (8, 16, 32, 64)}
TYPES |= {"size_t": (64, False), "ptrdiff_t": (64, True), "uintptr_t": (64, False)}
# Characters, with the bytes that they are.
CHARACTERS = {"'A'": 65, "' '": 32, "'~'": 126, "'\\n'": 10, "'\\t'": 9, "'\\r'": 13, "'\\0'": 0, "'\\\\'": 92, "'\\''": 39}
# All that is told of what is not ported.
SENTENCES = (
    "the source has more than 65536 bytes", "more than 64 brackets or statements lie in each other here", "what the macros of this source stand for is too long",
    "this comment does not end where it has to", "there are no texts in the language", "there are no floating-point numbers in the language",
    "there are no members in the language", "this is no character of one byte", "no word, number or mark begins here", "this bracket has no partner",
    "of the preprocessor only #define NAME and #pragma are read", "macros with arguments are not read",
    "a macro is read only if it stands for a type or an expression, in brackets where this has an operator", "this macro is defined or used before",
    "a constant with at most 31 bits and a sign is wanted here", "an array has from 1 to 1048576 elements", "this type is not read",
    "pointers and references are not read", "short vectors are not read", "this form is not read", "no function of the source or of the library has this name",
    "no statement that is read begins here", "no declaration that is read goes on here", "no parameter that is read goes on here",
    "a comma between expressions is read only between statements", "an arm of ?: that calls or changes something is read only whole behind =, or return",
    "the step of this loop does not fit into its head, and continue would miss it elsewhere",
    "the test of this loop calls or changes something, and continue would miss it elsewhere",
    "this is changed here and named elsewhere in the same expression, whose order is open", "the type of this value is not known here",
    "functions of this name give different types", "an array of which each lane has its own is not passed on",
    "an array of a function that may call itself is not read", "these values are more than the array has, or not a plain list",
    "an array that is not constant has values here, and an exported function is called",
)
# A source, the place where it is refused, and how that sentence begins.
REFUSED = [
    ("export void go() { int 5; }\n", "1:24", "no declaration"),
    ("uniform int 5;\n", "1:13", "no declaration"),
    ("void f(int x = 3) { }\n", "1:14", "no parameter"),
    ("uniform int a[1048577];\n", "1:15", "an array has from"),
    ("export void go() { int a[2] = { 1, { 2 } }; }\n", "1:36", "these values"),
    ("uniform int b[2][3];\nexport void go() { b[1] = 2; }\n", "2:23", "this form"),
    ("export void go() { uniform int x = f(1); }\n", "1:36", "no function"),
    ("export void go() { if (1) }\n", "1:27", "no statement"),
    ("export void go() { int x = 1; x++ }\n", "1:35", "no statement"),
    ("#define A(x) x\n", "1:9", "macros with"),
    ("#pragma once\n#undef A\n", "2:1", "of the preprocessor"),
    ("export void go() { int c = 'ab'; }\n", "1:28", "this is no character"),
    ("export void go() { int c = 3.; }\n", "1:28", "there are no floating"),
    ("void p(int x) { }\nexport void go() { int y = 1 + p(2); }\n", "2:32", "the type of this value"),
    ("export void go() { int y = z++ + 1; }\n", "1:28", "the type of this value"),
]
# A byte that begins no word, number or mark, within a source.
BYTES = (0, 1, 8, 11, 12, 14, 27, 31, ord("$"), ord("@"), ord("\\"), ord("`"), 127, 128, 160, 194, 255)
# A comment in a source, before and behind what moves: it stays, once.
KEPT = """uniform int total = 0;
// before the table
uniform int table[3] = { 1, 2, 3 }; // behind the table
int next(int by) {
    // before the number
    static int calls = 2; // behind the number
    calls += by;
    return calls;
}
export void go() {
    // before the row
    uniform int row[2] = { 4, 5 }; /* behind the row */
    int x = next(1) + next(2); // behind the sum
    total = row[1] + table[2]; // the end
}
"""


class Drawn:
    """A constant expression, as text with the brackets that it needs, and its value in C with 32 bits."""

    def __init__(self, text, value, level):
        self.text, self.value, self.level = text, value, level

    def within(self, level):
        return self.text if self.level >= level else f"({self.text})"


def drawn(chance, depth):
    """One whose parts all have 32 bits and a sign."""
    while True:
        found = tried(chance, depth)
        if found and LEAST <= found.value <= MOST:
            return found


def tried(chance, depth):
    if depth == 0 or chance.random() < 0.15:
        number = chance.choice((0, 1, 2, 3, 5, 7, 12, 40, 1000))
        return Drawn(hex(number) if chance.random() < 0.2 else str(number), number, len(LEVELS) + 1)
    if chance.random() < 0.2:
        sign, one = chance.choice(UNARY), drawn(chance, depth - 1)
        text = one.within(len(LEVELS))
        # `--` would be another token.
        text = f"({text})" if text[0] in "-+" else text
        return Drawn(sign + text, {"-": -one.value, "+": one.value, "~": ~one.value, "!": int(one.value == 0)}[sign], len(LEVELS))
    level = chance.randrange(len(LEVELS))
    sign, one, other = chance.choice(LEVELS[level]), drawn(chance, depth - 1), drawn(chance, depth - 1)
    value = of_two(sign, one.value, other.value)
    return None if value is None else Drawn(f"{one.within(level)} {sign} {other.within(level + 1)}", value, level)


def of_two(sign, a, b):
    """What C gives; None where it gives nothing."""
    if sign in "/%":
        if b == 0:
            return None
        quotient = abs(a) // abs(b) * (1 if (a < 0) == (b < 0) else -1)
        return quotient if sign == "/" else a - b * quotient
    if sign in ("<<", ">>"):
        if not 0 <= b < 31 or sign == "<<" and a < 0:
            return None
        return a << b if sign == "<<" else a >> b
    return int({
        "|": a | b, "^": a ^ b, "&": a & b, "==": a == b, "!=": a != b, "<": a < b, ">": a > b, "<=": a <= b, ">=": a >= b, "+": a + b, "-": a - b, "*": a * b,
    }[sign])


def constants(port, number):
    """Labels that are constant expressions: each is that of its value. The value stands there as a number of the language."""
    chance = random.Random(f"{SEED} {number}")
    made = [drawn(chance, 3) for _ in range(EACH)]
    lines = [f"    v = {it.value}; switch (v) {{ case {it.text}: y |= {1 << at}; break; default: break; }}" for at, it in enumerate(made)]
    source = "export void go() {\n    int v = 0;\n    int y = 0;\n" + "\n".join(lines) + "\n}\n"
    with tempfile.TemporaryDirectory(prefix="port-") as folder:
        text, errors, status = port.port(source.encode(), folder)
        shown, told = port.values(text, ["y"], folder) if status == 0 else ([], errors.decode(errors="replace"))
        found = [it.split(" = ")[1].split()[0] for it in shown if it.startswith("y = ")]
        wrong = [it.text for at, it in enumerate(made) if found and not int(found[0]) >> at & 1]
        why = [] if found and not wrong else [f"status {status}", told, *wrong]
        return Result(f"ported constants {number}", not why, why)


def nested(port, name):
    """As many statements as may lie in each other come out as they are, and one more is refused."""
    begin, end = NESTS[name]
    why = []
    for count in (NESTED - 1, NESTED):
        opened = "".join(begin.replace("%", str(number)) + "\n" for number in range(count))
        source = ("export void go() {\nint y = 0;\n" + opened + "y += 1;\n" + (end + "\n") * count + "}\n").encode()
        with tempfile.TemporaryDirectory(prefix="port-") as folder:
            output, errors, status = port.port(source, folder)
        if count < NESTED:
            why += [] if (output, errors, status) == (source, b"", 0) else [f"{count}: status {status}", errors.decode(errors="replace")]
        else:
            why += [] if status == 1 and not output and b"64 brackets or statements" in errors else [f"{count}: status {status}", errors.decode(errors="replace")]
    return Result(f"port of nested statements, {name}", not why, why)


def wrapped(value, bits, is_signed):
    value %= 1 << bits
    return value - (1 << bits) if is_signed and value >> (bits - 1) else value


def of_types():
    """Lines of a function for each type of C: a variable, and a cast; and for each character."""
    found = []
    for name, it in TYPES.items():
        row = lambda values: " ".join(str(wrapped(value, *it)) for value in values)
        step = 70001 * (1 << 20)
        found.append((f"{name} k = (int64)i * {step} - 2;", f"k = {row(lane * step - 2 for lane in range(4))}"))
        found.append((f"int64 k = ({name})((int64)i * {step} - 300);", "k = " + " ".join(str(wrapped(wrapped(lane * step - 300, *it), 64, True)) for lane in range(4))))
        found.append((f"uniform {name} k = -1; n = k < 0 ? 1 : 2;", f"k = {row([-1])}", f"n = {1 if it[1] else 2}"))
    return found + [(f"n = {text};", f"n = {value}") for text, value in CHARACTERS.items()]


def byte(port, number):
    """Whether a source is refused at a byte."""
    front = b"export void go() { int x = "
    with tempfile.TemporaryDirectory(prefix="port-") as folder:
        output, errors, status = port.port(front + bytes([number]) + b"1; }\n", folder)
    first = errors.split(b"\n")[0]
    wanted = b"source.ispc:1:%d: no word, number or mark begins here" % (len(front) + 1)
    return Result(f"port refuses the byte {number}", (output, status, first) == (b"", 1, wanted), [f"status {status}", repr(first)])


def long_ones(port):
    """A source of the most bytes, one of a byte more, and macros that stand for too much."""
    fitting = b"export void go() { }\n".ljust(65536)
    macros = b"#define a0 1\n" + b"".join(b"#define a%d (a%d + a%d)\n" % (it, it - 1, it - 1) for it in range(1, 40)) + b"export void go() { int x = a39; }\n"
    why = []
    for source, told in ((fitting, None), (fitting + b" ", "the source has more than 65536 bytes"), (macros, "what the macros of this source stand for is too long")):
        with tempfile.TemporaryDirectory(prefix="port-") as folder:
            output, errors, status = port.port(source, folder)
        first = errors.decode(errors="replace").split("\n")[0]
        is_right = (output, first, status) == (source, "", 0) if told is None else (output, status) == (b"", 1) and first.endswith(f": {told}")
        why += [] if is_right else [f"{len(source)} bytes: status {status}", first]
    return Result("port of long sources", not why, why)


def comments(port):
    """Each comment stands in what is ported, once and in the order of the source."""
    with tempfile.TemporaryDirectory(prefix="port-") as folder:
        text, errors, status = port.port(KEPT.encode(), folder)
        shown, _ = port.values(text, ["total"], folder) if status == 0 else ([], "")
    text = text.decode()
    said = [part.partition("\n")[0].split("*/")[0].strip() for part in KEPT.replace("/*", "//").split("//")[1:]]
    why = [f"{it!r} stands there {text.count(it)} times" for it in said if text.count(it) != 1]
    why += [] if any(it.startswith("total = 8") for it in shown) else [f"status {status}", errors.decode(errors="replace"), *shown]
    return Result("port of comments around what moves", not why, why + ([text] if why else []))


def tasks(port, gives, refused):
    """What is tried. Lines of a function are tried by `gives`, and sources by `refused`."""
    found = [lambda it=it: constants(port, it) for it in range(CONSTANTS)] + [lambda it=it: nested(port, it) for it in NESTS]
    return found + [lambda it=it: gives(port, it) for it in HEADS + of_types()] + [lambda it=it: refused(port, it) for it in REFUSED] + [
        *(lambda it=it: byte(port, it) for it in BYTES),
        lambda: long_ones(port),
        lambda: comments(port),
    ]
