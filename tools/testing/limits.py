"""Each limit of the language, the commands and the options, at its last value and one past it."""

from .program import FIRST, MOST_BYTES, answered, begins_with, refused, script

MOST_SOURCE = 65_536
AT_START, AT_END = b"at 3:5 go depth 1 lanes 1111\n", b"at 4:1 go depth 1 lanes 1111\n"


def one_line(name, text, at, wanted, *commands):
    """A function of one line that is accepted: a step ends at this column, and commands are answered so."""
    where = b"at 1:%d go depth 1 lanes 1111\n" % at
    return answered(name, script(b"export void go() { " + text + b"}\n", b"step", *commands), where + wanted)


def long_sum(operators):
    """The declaration of a sum of so many ones and one more."""
    return b"int x = 1" + b" + 1" * operators + b"; "


def declarations(count):
    """A function that declares so many variables, each in a line of its own."""
    return b"export void go() {\n" + b"".join(b"int v%d;\n" % number for number in range(1, count + 1)) + b"}\n"


def labels(count):
    """A function whose `switch` has so many labels, and where the last one stands."""
    before = b"void f(int a) { switch (a) { " + b"".join(b"case %d: " % label for label in range(count - 1))
    return before + b"default: ; } }\n", len(before) + 1


def nested(parentheses):
    return b"int x = " + b"(" * parentheses + b"7" + b")" * parentheses + b"; "


def parameters(count):
    """A function of so many parameters and a call of it, and where the last parameter stands."""
    before = b"int f(" + b"".join(b"int p%d, " % number for number in range(1, count))
    called = b", ".join(b"%d" % number for number in range(1, count + 1))
    return before + b"int p%d) { return p%d; }\nexport void go() { int x = f(%s); }\n" % (count, count, called), len(before) + 1


def foreach(names):
    """A `foreach` of one round over indices of these names, and the end of its function."""
    return b"foreach (" + b", ".join(b"%c = 0 ... 1" % name for name in names) + b") ; }\n"


def of_expressions_and_functions():
    (most_labels, _), (many_labels, last_label) = labels(256), labels(257)
    (eight, _), (nine, ninth) = parameters(8), parameters(9)
    ended = b"at 2:%d go depth 1 lanes 1111\nx = 8 8 8 8\n" % (len(eight.splitlines()[1]))
    go = b"export void go() { "
    return [
        one_line("256 operators", long_sum(256), 1055, b"x = 257 257 257 257\n", b"print x"),
        refused("257 operators", script(go + long_sum(257) + b"}\n", b"step"), b"1:1054: S13 Limit\n"),
        # (the braces of the function are the first nesting)
        one_line("64 nestings", nested(63), 157, b"x = 7 7 7 7\n", b"print x"),
        refused("65 nestings", script(go + nested(64) + b"}\n", b"step"), b"1:91: S4 TooDeep\n"),
        answered("256 variables", script(declarations(256), b"step 256", b"print v256"), b"at 258:1 go depth 1 lanes 1111\nv256 = 0 0 0 0\n"),
        refused("257 variables", script(declarations(257), b"step"), b"258:5: S13 Limit\n"),
        answered("8 parameters", script(eight, b"next", b"print x"), ended),
        refused("9 parameters", script(nine, b"step"), b"1:%d: S13 Limit\n" % ninth),
        answered("256 labels", script(most_labels), b"lane-pure 1:6 f: yes\n", ["--lane-pure"]),
        refused("257 labels", script(many_labels), b"1:%d: S13 Limit\n" % last_label, ["--lane-pure"]),
        answered("3 dimensions", script(go + foreach(b"ijk"), b"step 2"), b"at 1:%d go depth 1 lanes 1111\n" % len(go + foreach(b"ijk").rstrip())),
        refused("4 dimensions", script(go + foreach(b"ijkl"), b"step"), b"1:68: S13 Limit\n"),
    ]


def deep_calls(depth):
    """A function that calls itself up to so many frames, the entry's among them."""
    return b"int f(int n) {\nif (n > 1) n = f(n - 1);\nreturn n;\n}\nexport void go() {\nint x = f(%d);\n}\n" % (depth - 1)


def of_words_and_frames():
    array = lambda words: b"uniform int8 a[%d];\nexport void go() { }\n" % words
    arrays = lambda words: b"uniform int8 a[1048575];\nuniform int b[%d];\nexport void go() { }\n" % words
    deepest = b"breakpoint 1: at 3:1 f depth 64 lanes 1111\n"
    past = b"fault F5 CallDepth lane 0: at 2:12 f depth 64 lanes 1111\n"
    return [
        answered("2^20 words of an array", script(array(1_048_576), b"print a[1048575]", b"print a[1048576]"), b"a[1048575] = 0\nC8 OutOfRange\n"),
        refused("one word more of an array", script(array(1_048_577), b"step"), b"1:14: S13 Limit\n"),
        answered("2^20 words of two arrays", script(arrays(1), b"print b", b"step"), b"b = 0\nended\n"),
        refused("one word more of two arrays", script(arrays(2), b"step"), b"2:13: S13 Limit\n"),
        answered("64 frames", script(deep_calls(64), b"break 3", b"continue", b"print n"), b"breakpoint 1 at line 3\n" + deepest + b"n = 1 1 1 1\n"),
        answered("a call in the 64th frame", script(deep_calls(65), b"continue", b"print n"), past + b"n = 2 2 2 2\n"),
    ]


def of_texts():
    blanks = FIRST.ljust(MOST_SOURCE - 1) + b"\n"
    whole = script(FIRST, b"step", b"quit")
    return [
        answered("a source of 65,536 bytes", b"step\n", AT_START, ["most.ispc"], data={"most.ispc": blanks}),
        refused("a source of 65,537 bytes", b"step\n", b"1:1: S13 Limit\n", ["many.ispc"], data={"many.ispc": blanks + b"\n"}),
        refused("a script with a source of 65,537 bytes", b" " * MOST_SOURCE + b"\n%%\nstep\n", b"1:1: S13 Limit\n"),
        answered("a script of 1,048,576 bytes", whole.ljust(MOST_BYTES, b"\n"), AT_START),
        refused("a script of 1,048,577 bytes", whole.ljust(MOST_BYTES + 1, b"\n"), b"script: E2 NoScript\n"),
    ]


def of_commands():
    bad, past = b"C1 BadCommand\n", b"C8 OutOfRange\n"
    at_first = [b"step 0", b"step 10000001", b"delete 0", b"print x[10000001]", b"set var x = 18446744073709551616"]
    stops = [it for number in range(32) for it in (b"break 3", b"watch t")]
    numbered = b"".join(b"breakpoint %d at line 3\nwatch %d: t\n" % (number, number + 1) for number in range(1, 65, 2))
    source = b"uniform int t;\n" + FIRST
    return [
        answered("numbers past the last", script(FIRST, *at_first), bad * len(at_first)),
        answered("the last numbers", script(FIRST, b"step 10000000", b"delete 10000000", b"rs 10000000"), b"ended\nC10 NoSuchNumber\nhistory end: at 2:5 go depth 1 lanes 1111\n"),
        answered("a lane past the last", script(FIRST, b"step", b"print x[3]", b"print x[4]", b"print x[10000000]"), AT_START + b"x[3] = 9\n" + past * 2),
        answered("lines of 256 and 257 bytes", script(FIRST, b"step".ljust(256), b"step".ljust(257), b"x" * 257), AT_START + bad * 2),
        answered("64 breakpoints and watches", script(source, b"step", *stops, b"break 3", b"watch t"), b"at 4:5 go depth 1 lanes 1111\n" + numbered + b"C11 TableFull\n" * 2),
    ]


def of_options():
    told = begins_with(b"error: ")
    one_back = AT_END + b"history end: " + AT_START
    limit = b"set record full insn-number-max "
    kept = b"history 65536\nC8 OutOfRange\nhistory 1\nC1 BadCommand\n"
    return [
        answered("--history 1", script(FIRST, b"step 2", b"rs 2"), one_back, ["--history", "1"]),
        refused("--history 0", script(FIRST), told, ["--history", "0"]),
        answered("--history 65536", script(FIRST, b"step 2", b"rs 2"), AT_END + b"at 2:5 go depth 1 lanes 1111\n", ["--history", "65536"]),
        refused("--history 65537", script(FIRST), told, ["--history", "65537"]),
        answered("--steps 1", script(FIRST, b"step 2"), b"step limit: " + AT_START, ["--steps", "1"]),
        refused("--steps 0", script(FIRST), told, ["--steps", "0"]),
        answered("--steps 10000000", script(FIRST, b"step 2"), AT_END, ["--steps", "10000000"]),
        refused("--steps 10000001", script(FIRST), told, ["--steps", "10000001"]),
        answered("a history limit of 65,536 and of 1", script(FIRST, limit + b"65536", limit + b"65537", limit + b"1", limit + b"0"), kept),
    ]


def runs():
    return of_expressions_and_functions() + of_words_and_frames() + of_texts() + of_commands() + of_options()
