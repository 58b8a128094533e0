"""`rinddecade port`, on the optimized build: what it writes for sources of the language, for the kernels' first spellings, and for damaged texts.

Each source of examples/ and examples/kernels/ comes out word for word. Each source of examples/ports/ is a kernel of examples/kernels/ as it
was first written: ported it gives the kernel's results, at every width, and ported again it stays as it is. So do the rows of
docs/PORTING.md whose first form is ported: they give the values of the form in their place. A row that is not ported is refused at
a place in its lines. REFUSED has texts that are refused, each with the place, and GIVES has forms that no page shows, with values that
are those of C.
"""

import pathlib
import random
import re
import subprocess
import tempfile

from . import desk, kernels, ported_parts, porting
from .calls import side_by_side
from .tried import Result

NAME = "examples/ports"
WIDTHS = kernels.WIDTHS
SEED, DAMAGED, BYTES = 20, 300, 1 << 20
SECONDS = 300
SECTION = "By `rinddecade port`"

# What stands between two rows of elements.
ROW = re.compile(r"\n\[\d+\]")

# A function, and lines in it; where `go` ends, variables have these values at 4 lanes.
FRAME = """uniform int a[8];
uniform int n = 0;
int made;
int f(int x) { made += 1; return x * x; }
uniform int u(uniform int x) { n += 1; return x - 1; }
export void go() {
    int i = programIndex;
    int x = i + 1;
    int y = 0;
%s
}
"""

GIVES = [
    ("int p = 1, q = x, r = p + q; y = r;", "y = 2 3 4 5"),
    ("for (int j = 0, k = 3; j < k; j++, k--) y += k;", "y = 5 5 5 5"),
    ("for (y = 1, x = 2; x < 9; x += 3, y *= 2);", "x = 11 11 11 11", "y = 8 8 8 8"),
    ("a[i] = f(x) + f(2);", "a = 5 8 13 20 0 0 0 0"),
    ("a[f(i) % 8] += f(x);", "a = 1 16 0 0 9 0 0 0"),
    ("y = f(f(f(2)));", "y = 256 256 256 256"),
    ("if (f(x) > 4 && f(i) > 5) y = 1; x = made;", "y = 0 0 0 1", "x = 1 1 2 2"),
    ("if (f(x) > 4 || f(i) > 0) y = 1; x = made;", "y = 0 1 1 1", "x = 2 2 1 1"),
    ("y = x > 2 ? f(x) : i == 0 ? 7 : 8; x = made;", "y = 7 8 9 16", "x = 0 0 1 1"),
    ("int z = x > 2 ? f(x) + 1 : -1; y = z;", "y = -1 -1 10 17"),
    ("y = (x > 1 && f(x) > 4) + 1;", "y = 1 1 2 2"),
    ("while (f(x) < 9) { x++; if (x == 2) continue; y++; }", "x = 3 3 3 4", "y = 1 1 0 0"),
    ("do { y++; } while (f(x++) < 9);", "x = 4 4 4 5", "y = 3 2 1 1"),
    ("for (int j = 0; f(j) < 9; j++) { if (j == 1) continue; y += j; }", "y = 2 2 2 2"),
    ("while (x--) y += 2;", "x = -1 -1 -1 -1", "y = 2 4 6 8"),
    ("while (--x > 0) y++;", "x = 0 0 0 0", "y = 0 1 2 3"),
    ("uniform int k = 3; a[k++] = 5; a[k--] = 6; a[++k] = 7; n = k;", "a = 0 0 0 5 7 0 0 0", "n = 4"),
    ("uniform int k = 2; y = a[2] = n = k++ + 4; n += 10 * k;", "y = 6 6 6 6", "n = 36", "a = 0 0 6 0 0 0 0 0"),
    ("int b[3] = { x, 7 }; b[2] += b[0] + b[1]; b[1]++; y = b[2] * 100 + b[1];", "y = 808 908 1008 1108"),
    ("uniform int b[2][3] = { { 1, 2 }, { 4, 5, 6 } }; n = b[1][2] * 10 + b[0][1]; y = b[i % 2][x % 3];", "n = 62", "y = 2 6 1 5"),
    ("int b[2][2]; b[1][i % 2] = x; y = b[1][0] * 10 + b[1][1];", "y = 10 2 30 4"),
    ("if (x > 2) y += f(x); else y -= f(x);", "y = -1 -4 9 16"),
    ("if (x > 2) if (f(x) > 9) y = 1; else y = 2;", "y = 0 0 2 1"),
    ("switch (f(i)) { case 1 << 2: y = 4; break; case 'A' - 64: int k = 9; y = k; default: y += f(2); }", "y = 4 13 4 4"),
    ("static int calls = 3; calls += f(2); y = calls;", "y = 7 7 7 7"),
    ("uniform int k = 4; while (k = u(k)) y++;", "y = 3 3 3 3", "n = 4"),
    ("foreach (j = u(1) ... u(5)) a[j] = f(j);", "a = 0 1 4 9 0 0 0 0"),
    ("foreach_active (j) { y += f((int)j); }", "y = 0 1 4 9"),
    ("n += packed_store_active(&a[n], f(x)) + 1;", "n = 5", "a = 1 4 9 16 0 0 0 0"),
    ("signed int64 k = (size_t)x + (uint8_t)257; y = k;", "y = 2 3 4 5"),
    ("x = 1, y = f(3), x += y;", "x = 10 10 10 10"),
    ("const uniform int m = 3 * 2; uniform int b[m + 1]; b[m] = 1k; n = b[6];", "n = 1024"),
]

# A whole source, the place, and a part of the sentence.
REFUSED = [
    ("#include \"a.isph\"\n", "1:1", "#define NAME and #pragma"),
    ("#define F(x) x\nexport void go() { }\n", "1:9", "macros with arguments"),
    ("#define N { 1 }\nexport void go() { }\n", "1:11", "stands for a type or an expression"),
    ("#define N 2 + 3\nexport void go() { int x = 2 * N; }\n", "1:13", "in brackets where this has an operator"),
    ("#define N -1 - 1\nexport void go() { }\n", "1:14", "in brackets where this has an operator"),
    ("#define N (1) << 4\nexport void go() { }\n", "1:15", "in brackets where this has an operator"),
    ("#define N programIndex > 1 ? 5 : 6\nexport void go() { }\n", "1:24", "in brackets where this has an operator"),
    ("#define TWICE 2 *\nexport void go() { }\n", "1:17", "in brackets where this has an operator"),
    ("#define N 1\n#define N 2\n", "2:9", "defined or used before"),
    ("float f(float x) { return x; }\n", "1:1", "this type is not read"),
    ("export void go() { float x = 1; }\n", "1:20", "this type is not read"),
    ("export void go() { int x = 1.5; }\n", "1:28", "floating-point"),
    ("struct P { int x; };\n", "1:1", "this type is not read"),
    ("export void go() { int *p; }\n", "1:24", "pointers"),
    ("void f(int &x) { }\n", "1:12", "references"),
    ("export void go() { int<4> v; }\n", "1:23", "short vectors"),
    ("export void go() { p.x = 1; }\n", "1:21", "members"),
    ("export void go() { print(\"x\"); }\n", "1:26", "texts"),
    ("export void go() { int x = clock(); }\n", "1:28", "no function"),
    ("int f(int x) { return x; }\nexport void go() { int x = (1 ? f(2) : 3) + 1; }\n", "2:33", "arm of ?:"),
    ("int f(int x) { int a[4]; return x; }\nint g(int x) { int a[4]; return g(x); }\n", "2:20", "may call itself"),
    ("export void go() { int i = 0; i = i++; }\n", "1:35", "named elsewhere"),
    ("export void go() { int i = 0; int j = i + i++; }\n", "1:43", "named elsewhere"),
    ("int f(int x) { return x; }\nuniform int f(uniform int x) { return x; }\nexport void go() { int y = 1 + f(2); }\n", "3:32", "different types"),
    ("int f(int x) { return x; }\nexport void go() { int x = 0; do { continue; } while (f(x)); }\n", "2:48", "the test of this loop"),
    ("export void go() { for (int i = 0, j = 0; i < 3; i++, j++) continue; }\n", "1:50", "the step of this loop"),
    ("void f(int a[]) { }\nexport void go() { int b[4]; f(b); }\n", "2:32", "of which each lane has its own"),
    ("export void go() { int x = (1, 2); }\n", "1:30", "comma"),
    ("uniform int a[0];\n", "1:15", "elements"),
    ("uniform int n = 1 << 40;\n", "1:17", "a constant with at most"),
    ("uniform int a[2] = { 1, 2, 3 };\nexport void go() { }\n", "1:28", "more than the array has"),
    ("uniform int a[1] = { 1 };\nexport void go() { }\nvoid f() { go(); }\n", "1:13", "exported function is called"),
    ("export void go() { goto done; }\n", "1:20", "this form is not read"),
    ("export void go() { (1 + 2; }\n", "1:28", "this bracket"),
    ("export void go() { x = 1 }\n", "1:26", "no statement"),
    ("/* never closed\n", "1:1", "comment"),
    ("export void go() { int c = ''; }\n", "1:28", "character"),
    ("export void go() { int x = 1 @ 2; }\n", "1:30", "no word, number or mark"),
    ("export void go() { int x = " + "(" * 70 + "1" + ")" * 70 + "; }\n", "1:91", "64 brackets"),
]


# Names of a source, and the name of the variable that gets the value of a call of `f` beside them: behind it stand as many lines below as
# no name of the source has before a number at its end.
NAMED = [
    ("z", "f_1"),
    ("z_", "f_1"),
    ("z__", "f_1"),
    ("z9", "f_1"),
    ("z_9", "f__1"),
    ("z9_", "f_1"),
    ("z__12", "f___1"),
    ("z_1_2", "f__1"),
]
CALLS = "int f(int x) { return x; }\nexport void go() { int %s = 1 + f(2); }\n"


class Port:
    """The program, which ports texts and runs them."""

    def __init__(self, root, program):
        self.root, self.program = root, program

    def called(self, words, folder, lines=b""):
        ended = subprocess.run([str(self.program), *map(str, words)], cwd=folder, input=lines, capture_output=True, timeout=SECONDS, check=False)
        return ended.stdout, ended.stderr, ended.returncode

    def port(self, text, folder):
        """What a text is ported to, what standard error is told, and the status."""
        path = pathlib.Path(folder, "source.ispc")
        path.write_bytes(text)
        return self.called(["port", path.name], folder)

    def values(self, text, names, folder, words=()):
        """The values of variables where the run of a source has ended, or at its last line's breakpoint."""
        path = pathlib.Path(folder, "ported.ispc")
        path.write_bytes(text)
        last = max(number for number, line in enumerate(text.splitlines(), 1) if line == b"}" or number == 1)
        stop = [] if words else [f"break {self.end_of_go(text) or last}"]
        lines = [*stop, "continue", "set print elements 0", "set print repeats 0", "echo ----", *(f"print {name}" for name in names)]
        output = self.called(["debug", path.name, *words], folder, "".join(f"{it}\n" for it in lines).encode())
        shown = ROW.sub("", output[0].decode(errors="replace").partition("----")[2])
        return shown.split("\n"), output[1].decode(errors="replace")

    def end_of_go(self, text):
        """The line at which `go` ends."""
        lines = text.decode().splitlines()
        begins = [number for number, line in enumerate(lines, 1) if line.startswith("export void go")]
        return next((number for number, line in enumerate(lines, 1) if begins and number > begins[0] and line == "}"), None)


def lines_of(shown):
    """The lines `NAME = VALUES` that are shown."""
    return [it.removeprefix("(rinddecade) ").rstrip() for it in shown if " = " in it]


def same(port, path):
    """Whether a source of the language comes out word for word."""
    with tempfile.TemporaryDirectory(prefix="port-") as folder:
        text = path.read_bytes()
        output, errors, status = port.port(text, folder)
        why = [] if (output, errors, status) == (text, b"", 0) else [f"status {status}, or another text", errors.decode(errors="replace")]
        return Result(f"port {path.name}", not why, why)


def again(port, text, folder):
    """What is wrong where a ported text is ported again."""
    output, errors, status = port.port(text, folder)
    return [] if output == text and status == 0 else [f"ported again it is another text, with status {status}", errors.decode(errors="replace")]


def inputs(kernel, text):
    """The lines of a kernel's input whose names the ported source has at file scope, or as parameters of what is exported."""
    declared = b"\n".join(re.findall(rb"^(?:uniform|export)[^;{]*", text, re.M)).decode()
    lines = kernel.file("input").read_text(encoding="utf-8").splitlines()
    kept = [it for it in lines if "=" not in it or re.search(rf"\b{it.split(' = ')[0]}\b", declared)]
    return "".join(f"{it}\n" for it in kept)


def spelled(port, kernel, path):
    """Whether a kernel's first spelling, ported, gives the kernel's results at every width."""
    with tempfile.TemporaryDirectory(prefix="port-") as folder:
        text, errors, status = port.port(path.read_bytes(), folder)
        if status:
            return Result(f"{NAME} {kernel.name}", False, [f"status {status}", errors.decode(errors="replace")])
        pathlib.Path(folder, "input").write_text(inputs(kernel, text), encoding="utf-8")
        why = again(port, text, folder)
        why += [it for it in comments(path.read_bytes()) if it not in text.decode()]
        for width in WIDTHS:
            words = ["--input", "input", "--width", width, "--steps", 10_000_000, "--history", 1]
            shown, errors = port.values(text, kernel.results, folder, words)
            found = lines_of(shown)
            wrong = [it for name, values in kernel.results.items() for it in kernel.wrong_value(name, values, found)]
            why += [f"at {width} lanes: {it}" for it in wrong] + ([errors] if wrong else [])
        return Result(f"{NAME} {kernel.name}", not why, why)


def comments(text):
    """The comments to the end of a line, without those behind lines of the preprocessor."""
    return re.findall(r"//[^\n]*", text.decode())


def row(port, it):
    """Whether a row of the page is refused at a place in its lines, or gives the values of what is written in its place."""
    source, line, _ = it.source(it.refused)
    with tempfile.TemporaryDirectory(prefix="port-") as folder:
        text, errors, status = port.port(source.encode(), folder)
        name = f"{porting.PAGE}: port {it.refused[0]}"
        if status:
            found = re.match(rb"source\.ispc:(\d+):\d+: [^\n]+\n", errors)
            is_within = found and line <= int(found[1])
            return Result(name, status == 1 and bool(is_within), [f"status {status}", errors.decode(errors="replace")])
        why = again(port, text, folder)
        own = set(re.findall(r"\w+", " ".join(it.refused)))
        if it.gives and all(value.split(" = ")[0] in own | {"x", "y"} for value in it.gives):
            shown, errors = port.values(text, [value.split(" = ")[0] for value in it.gives], folder)
            why += [] if lines_of(shown) == it.gives else [*shown, errors, "wanted:", *it.gives]
        return Result(name, not why, why)


def gives(port, it):
    """Whether lines in a function, ported, give values."""
    lines, *wanted = it
    with tempfile.TemporaryDirectory(prefix="port-") as folder:
        text, errors, status = port.port((FRAME % f"    {lines}").encode(), folder)
        if status:
            return Result(f"port {lines}", False, [f"status {status}", errors.decode(errors="replace")])
        shown, errors = port.values(text, [value.split(" = ")[0] for value in wanted], folder)
        why = again(port, text, folder)
        why += [] if lines_of(shown) == wanted else [*shown, errors, "wanted:", *wanted, text.decode()]
        return Result(f"port {lines}", not why, why)


def named(port, it):
    """Whether a fresh variable has a name beside one of the source."""
    name, wanted = it
    with tempfile.TemporaryDirectory(prefix="port-") as folder:
        text, errors, status = port.port((CALLS % name).encode(), folder)
        found = sorted(set(re.findall(r"\bf_+\d+\b", text.decode())))
        return Result(f"port names beside {name}", status == 0 and found == [wanted], [f"status {status}", *found, f"wanted: {wanted}", errors.decode(errors="replace")])


def refused(port, it):
    """Whether a text is refused at a place."""
    text, place, words = it
    with tempfile.TemporaryDirectory(prefix="port-") as folder:
        output, errors, status = port.port(text.encode(), folder)
        first, _, shown = errors.decode(errors="replace").partition("\n")
        wanted = [f"source.ispc:{place}: {it}" for it in ported_parts.SENTENCES if words in it]
        why = [] if status == 1 and not output and first in wanted else [f"status {status}", first, f"wanted: {place} {words}"]
        why += [] if shown == mark_of(text, place) else ["another mark:", *shown.splitlines(), *mark_of(text, place).splitlines()]
        return Result(f"port refuses {text[:40]!r}", not why, why)


def mark_of(text, place):
    """The line of a place with a mark under it; of a line of more than 68 bytes the 60 around, of which 30 stand before the mark."""
    line, column = map(int, place.split(":"))
    source, before, front = text.split("\n")[line - 1].encode(), column - 1, 0
    if len(source) > 68:
        front = max(0, min(before - 30, len(source) - 60))
        cut = source[front : front + 60]
        before += (3 if front else 0) - front
        source = (b"..." if front else b"") + cut + (b"..." if front + 60 < len(source) else b"")
    return desk.marked(line, source, before).decode()


def damaged(root):
    """Random bytes, sources of which a part is another byte, deep nesting, and long texts."""
    chance = random.Random(SEED)
    found = [it.read_bytes() for it in sorted((root / NAME).glob("*.ispc"))]
    texts = [bytes(chance.randrange(256) for _ in range(chance.randrange(400))) for _ in range(DAMAGED // 3)]
    marks = [b"(", b")", b"{", b"}", b"[", b"]", b"++", b"=", b"?", b":", b"&&", b",", b";", b"#define x x x\n", b"if(", b"f(", b"case", b"int "]
    texts += [b"".join(chance.choice(marks) for _ in range(200)) for _ in range(DAMAGED // 3)]
    for _ in range(DAMAGED // 3):
        text = bytearray(chance.choice(found))
        for _ in range(4):
            at = chance.randrange(len(text))
            text[at : at + chance.randrange(3)] = chance.choice(marks)
        texts.append(bytes(text))
    deep = [b"export void go() {" + it * 5000 for it in (b"(", b"{", b"if(1)", b"do ", b"x=-", b"x=f(", b"a[", b"x?", b"!", b"x=y=", b"for(;;)", b"switch(1){", b"x&&f(x)&&")]
    doubled = b"#define a0 1 1\n" + b"".join(b"#define a%d a%d a%d\n" % (it, it - 1, it - 1) for it in range(1, 60))
    long = [bytes(BYTES), b"x" * BYTES, b"x = f(x);\n" * (BYTES // 10), b"// a\n" * (BYTES // 5)]
    full = [b"int f(int x){return x;}export void go(){int x=0;" + b"x+=f(x);" * 8000 + b"}", b"uniform int a%d;" % 0 * 4000, b"export void go(){" + b"int a[2];" * 7000 + b"}"]
    return texts + deep + [doubled] + long + full


def hostile(port, text):
    """Whether a damaged text is ported or refused at a place in it."""
    with tempfile.TemporaryDirectory(prefix="port-") as folder:
        output, errors, status = port.port(text, folder)
        found = re.match(rb"source\.ispc:(\d+):(\d+): [^\n]+\n", errors)
        is_within = found and int(found[1]) <= text.count(b"\n") + 1
        is_right = status == 0 and not errors or status == 1 and not output and bool(is_within)
        return Result(f"port of damaged {text[:30]!r}", is_right, [f"status {status}", errors[:200].decode(errors="replace")])


def files(port):
    """A file that holds something is written over only with --force, and never the source."""
    with tempfile.TemporaryDirectory(prefix="port-") as folder:
        path, to = pathlib.Path(folder, "source.ispc"), pathlib.Path(folder, "to.ispc")
        path.write_bytes(b"export void go() { }\n")
        steps = [
            (["port", "source.ispc", "--to", "to.ispc"], 0, path.read_bytes()),
            (["port", "source.ispc", "--to", "to.ispc"], 2, path.read_bytes()),
            (["port", "source.ispc", "--to", "to.ispc", "--force"], 0, path.read_bytes()),
            (["port", "source.ispc", "--to", "source.ispc", "--force"], 2, path.read_bytes()),
            (["port", "missing.ispc"], 2, path.read_bytes()),
            (["port"], 2, path.read_bytes()),
        ]
        why = []
        for words, status, wanted in steps:
            output, _, came = port.called(words, folder)
            written = to.read_bytes() if to.is_file() else None
            why += [] if (came, output, written) == (status, b"", wanted) else [f"{' '.join(words)}: status {came}"]
        return Result("port --to", not why, why)


def shown_on_page(port, root):
    """Whether the source that the page shows first is ported to what it shows next."""
    page = (root / porting.PAGE).read_text(encoding="utf-8").partition(f"## {SECTION}\n")[2]
    blocks = re.findall(r"^```\n(.*?)^```$", page, re.M | re.S)[:2]
    with tempfile.TemporaryDirectory(prefix="port-") as folder:
        output, errors, status = port.port(blocks[0].encode(), folder) if len(blocks) == 2 else (b"", b"", 2)
        is_right = status == 0 and output.decode() == blocks[1]
        return Result(f"{porting.PAGE}: {SECTION}", is_right, [f"status {status}", errors.decode(errors="replace"), *output.decode().splitlines()])


def spellings(root):
    """The kernels of which there is a first spelling."""
    return [(it, root / NAME / f"{it.name}.ispc") for it in kernels.kernels(root) if (root / NAME / f"{it.name}.ispc").is_file()]


def sources(root):
    return sorted((root / "examples").glob("*.ispc")) + sorted((root / kernels.NAME).glob("*.ispc"))


def lists(root, program):
    """The results, list by list, the quick ones first; last those of kernels that run."""
    port = Port(root, program)
    rows = [it for it in porting.Page(root).rows if not it.wrong(porting.names(root))]
    ours = [lambda it=it: gives(port, it) for it in GIVES] + [lambda it=it: refused(port, it) for it in REFUSED]
    ours += [lambda it=it: named(port, it) for it in NAMED]
    ours += [lambda it=it: row(port, it) for it in rows] + [lambda: files(port), lambda: shown_on_page(port, root)] + ported_parts.tasks(port, gives, refused)
    ours += [lambda it=it: same(port, it) for it in sources(root)]
    for tasks in (ours, [lambda it=it: hostile(port, it) for it in damaged(root)], [lambda it=it: spelled(port, *it) for it in spellings(root)]):
        yield side_by_side(lambda task: task(), tasks)


def results(root, program):
    return [it for found in lists(root, program) for it in found]


def check(root):
    """Each file belongs to a kernel, and at least six kernels have a first spelling."""
    known = {path.name for _, path in spellings(root)}
    why = [f"{it.name} belongs to no kernel" for it in sorted((root / NAME).iterdir()) if it.name not in known]
    why += [] if len(known) >= 6 else ["there are fewer than six"]
    return [Result(NAME, not why, why)]
