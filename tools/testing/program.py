"""What the program is to do as it is called: options, files, statuses and standard error, as docs/COMMANDS.md has them."""

from .tried import Run, shown

CRATE = "ispc_cli"

FIRST = b"export void go() {\n    int x = programIndex * 3;\n    x += 1;\n}\n"
RATE = b"export void go() {\n    uniform int x = programIndex;\n}\n"
HIDDEN = b"void go() { }\n"
MOST_BYTES = 1_048_576


def script(source, *lines):
    return source + b"%%\n" + b"".join(line + b"\n" for line in lines)


def begins_with(start):
    def judged(text):
        return [] if text.startswith(start) else [f"it does not begin with {start.decode()!r}:", *shown(text)]

    return judged


def has_words(*words):
    def judged(text):
        return [f"it lacks {word.decode()}" for word in words if word not in text]

    return judged


def answered(name, stdin, output, arguments=(), **how):
    return Run(name, stdin, arguments, output, b"", 0, **how)


def refused(name, stdin, errors, arguments=(), **how):
    return Run(name, stdin, arguments, b"", errors, 2, **how)


def runs_of_scripts():
    """Standard input has the source, a line %% and the commands."""
    at_start, at_end = b"at 3:5 go depth 1 lanes 1111\n", b"at 4:1 go depth 1 lanes 1111\n"
    return [
        answered("no commands", script(FIRST), b""),
        answered("a last command without its LF", script(FIRST) + b"step", at_start),
        answered("nothing after quit", script(FIRST, b"step", b"quit", b"step"), at_start),
        answered("a line that is no command", script(FIRST, b"stop", b"", b"step"), b"C1 BadCommand\n" + at_start),
        answered("a second line %% is a command", script(FIRST, b"%%"), b"C1 BadCommand\n"),
        answered("lines that end in CR and LF", script(FIRST, b"step\r", b"s\r"), at_start + at_end),
        answered("blanks behind a command", script(FIRST, b" \t", b"step  ", b"print \t x ", b" step"), at_start + b"x = 0 3 6 9\nC1 BadCommand\n"),
        refused("no line %%", FIRST, b"script: E2 NoScript\n"),
        refused("a line %% with a blank", FIRST + b"%% \nstep\n", b"script: E2 NoScript\n"),
        refused("nothing on standard input", b"", b"script: E2 NoScript\n"),
        refused("a source with a fault", script(RATE, b"step"), b"2:21: S7 Rate\n"),
        refused("a source without an entry", script(HIDDEN, b"step"), b"entry: E1 NoEntry\n"),
        refused("an entry that is not there", script(FIRST, b"step"), b"entry: E1 NoEntry\n", ["--entry", "stop"]),
    ]


def runs_of_files():
    """A file has the source, and standard input the commands."""
    first, rate = {"first.ispc": FIRST}, {"rate.ispc": RATE}
    at = b"at 3:5 go depth 1 lanes 1111\n"
    return [
        answered("a file", b"step\nprint x\n", at + b"x = 0 3 6 9\n", ["first.ispc"], data=first),
        answered("a file, and no line %%", b"%%\nstep\n", b"C1 BadCommand\n" + at, ["first.ispc"], data=first),
        refused("a file with a fault", b"step\n", b"2:21: S7 Rate\n", ["rate.ispc"], data=rate),
        refused("a file that is not there", b"step\n", b"cannot read missing.ispc\n", ["missing.ispc"]),
    ]


def runs_of_inputs():
    """A file has the input of the entry function."""
    source = b"uniform int t[2];\nexport void go(uniform int n, uniform int a[]) {\nt[0] = n + a[1];\n}\n"
    files = {"sum.ispc": source, "sum.input": b"n = 5\na = 1 2\n", "range.input": b"n = 5\na = 1 3000000000\n", "line.input": b"\nz = 1\n"}
    files |= {"none.input": b"", "half.input": b"n = 5", "long.input": b"\n" * 4_194_305, "most.input": b"n = 5\na = 1 2".ljust(4_194_304, b"\n")}
    commands, answers = [b"print a", b"step", b"print t"], b"a = 1 2\nat 4:1 go depth 1 lanes 1111\nt = 7 0\n"
    given = ["sum.ispc", "--input", "sum.input"]
    missing = b"cannot read missing.input\n"
    return [
        answered("--input", script(source, *commands), answers, ["--input", "sum.input"], data=files),
        answered("--input, and a file", b"".join(it + b"\n" for it in commands), answers, given, data=files),
        answered("an input of 4,194,304 bytes", script(source, *commands), answers, ["--input", "most.input"], data=files),
        refused("an input of 4,194,305 bytes", script(source), b"input: I4 TooLarge\n", ["--input", "long.input"], data=files),
        refused("no input", script(source, *commands), b"input: I2 Missing n\n"),
        refused("an empty input", script(source), b"input: I2 Missing n\n", ["--input", "none.input"], data=files),
        refused("half an input", script(source), b"input: I2 Missing a\n", ["--input", "half.input"], data=files),
        refused("a value out of range", script(source), b"input 2: I3 Range\n", ["--input", "range.input"], data=files),
        refused("a line that is no row", script(source), b"input 2: I1 BadLine\n", ["--input", "line.input"], data=files),
        refused("an input that is not there", script(source), missing, ["--input", "missing.input"]),
        refused("an input that is not there, and no line %%", source, missing, ["--input", "missing.input"]),
        refused("neither source nor input is there", b"", b"cannot read missing.ispc\n", ["missing.ispc", "--input", "missing.input"]),
        refused("a source with a fault and an input", script(RATE), b"2:21: S7 Rate\n", ["--input", "line.input"], data=files),
        refused("no entry and an input", script(HIDDEN), b"entry: E1 NoEntry\n", ["--input", "line.input"], data=files),
        answered("--lane-pure has no input", script(HIDDEN), b"lane-pure 1:6 go: yes\n", ["--lane-pure", "--input", "missing.input"]),
    ]


def runs_of_options():
    two, wide = [b"step 2", b"print x"], b"1" * 8
    ended = b"at 4:1 go depth 1 lanes " + wide + b"\nx = 1 4 7 10 13 16 19 22\n"
    wrong = [
        ["--nothing"],
        ["--width", "5"],
        ["--width"],
        ["--history", "many"],
        ["first.ispc", "second.ispc"],
        ["--lane-pure", "--lane-pure"],
    ]
    helped = has_words(b"Usage: ispc_cli", b"--input", b"--entry", b"--width", b"--history", b"--steps", b"--lane-pure")
    return [
        answered("--width 8", script(FIRST, *two), ended, ["--width", "8"]),
        answered("--lane-pure", script(FIRST, b"step"), b"lane-pure 1:13 go: yes\n", ["--lane-pure"]),
        answered("--lane-pure without an entry", script(HIDDEN), b"lane-pure 1:6 go: yes\n", ["--lane-pure"]),
        refused("--lane-pure without a line %%", FIRST, b"script: E2 NoScript\n", ["--lane-pure"]),
        refused("--lane-pure of a source with a fault", script(RATE), b"2:21: S7 Rate\n", ["--lane-pure"]),
        refused("--lane-pure of a file that is not there", b"", b"cannot read missing.ispc\n", ["missing.ispc", "--lane-pure"]),
        answered("--help", b"", helped, ["--help"]),
        *[refused(f"wrong: {' '.join(words)}", script(FIRST), begins_with(b"error: "), words) for words in wrong],
    ]


def runs_of_entries():
    """Entries that are none."""
    functions = b"void a() { }\nexport void b() { int x = 1; }\nexport void c() { }\n"
    return [
        refused(f"the entry {name!r}", script(functions, b"step"), b"entry: E1 NoEntry\n", ["--entry", name])
        for name in ("a", "d", "bb", "x", "go")
    ]


def runs():
    return runs_of_scripts() + runs_of_files() + runs_of_inputs() + runs_of_options() + runs_of_entries()


def runs_of_bytes():
    """Arguments that are not text, which only a built program can be given."""
    source = {b"\xff.ispc".decode("utf-8", "surrogateescape"): FIRST}
    told = begins_with(b"error: ")
    return [
        refused("an entry that is not text", script(FIRST), told, ["--entry", b"\xff"]),
        refused("an empty entry", script(FIRST), b"entry: E1 NoEntry\n", ["--entry", ""]),
        refused("a file whose name is not text", b"step\n", told, [b"\xff.ispc"], data=source),
    ]
