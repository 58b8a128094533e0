"""How `rinddecade` is called: the words of each verb, what they are refused for, which files a picture is written over, lines that are too
long, and what a refused program is told with its line, a mark and what to do."""

import os
import pathlib
import subprocess
import tempfile

from . import program
from .devices import opened
from .program import begins_with, has_words
from .tried import Result, Run, differences

CRATE = "rinddecade"
VERSION = b"rinddecade 0.1.0\n"
FIRST, RATE, HIDDEN = program.FIRST, program.RATE, program.HIDDEN
FILES = {"first.ispc": FIRST}
OF_A_RUN = (b"<SOURCE>", b"--input <FILE>", b"--entry <NAME>", b"--width <W>", b"--history <N>", b"[default: 65536]", b"--steps <N>")
OF_A_PICTURE = (b"--commands <FILE>", b"--watch <T>", b"--from <N>", b"--most <N>", b"--row <N>", b"[default: 60]", b"--to <FILE>", b"--force")
OF_A_PROFILE = (b"--from <N>", b"--most <N>", b"--top <N>", b"--by <WHAT>", b"line, function, form, access, parting", b"--color <WHEN>", b"--annotate", b"--json", b"--compare")
PICTURE = b'<svg xmlns="http://www.w3.org/2000/svg" width="'
MOST_COMMANDS = 1_048_576
MOST_TYPED = 4_096
TOO_LONG = b"C1 BadCommand: the line has more than 4096 bytes, so nothing is done for it.\n"
# The most bytes of a text that `echo` writes.
ECHOED = MOST_TYPED - len("echo ")

# What is written to files as it is on standard output.
TO_FILES = (["page"], ["profile"], ["profile", "--json"], ["profile", "--compare"], ["port"])

# What each verb writes, and what is told where it holds something else.
MADE = {"picture": b"picture", "page": b"page", "profile": b"profile", "port": b"text"}
HELD = {"picture": b" other than a picture", "page": b" other than a page of a run", "profile": b"", "port": b""}

# What a picture does not watch, and why.
NO_NAME, NO_TARGET = b"--watch: the source has no variable ", b'--watch takes a variable, or a lane or an element of one as "x[2]", and not '
UNWATCHED = {"nope": NO_NAME + b"nope", "nope[1]": NO_NAME + b"nope", "": NO_TARGET, "x + 1": NO_TARGET + b"x + 1", "x y": NO_TARGET + b"x y", "x[1": NO_TARGET + b"x[1"}
# What `explain` explains, by the headings of docs/REFUSALS.md.
EXPLAINED = b"error: there are S1 to S13, E1, E2, I1 to I4, F1 to F5 and C1 to C12, but no "

# So many exported functions are listed.
NAMED = 12

# One breakpoint more than there is room for.
STOPS = 64
FULL = b"C11 TableFull: 64 breakpoints and watches are there; `delete N` makes room.\n"

# So many lines can be displayed.
DISPLAYS = 16
NOT_DISPLAYED = b"it is not displayed from now on: 16 lines are; `undisplay N` makes room\n"

# A loop of 201 steps, and where its program begins.
LOOP = b"export void go() {\n    uniform int n = 0;\n    while (n < 100)\n        n += 1;\n}\n"
AT_START = b"go at loop.ispc:2:5, "


def explained(number):
    return b"`rinddecade explain %s` says what this means, with an example and a cure\n" % number


def marked(number, line, before, mark=b""):
    """A line behind its number, and a mark under what follows so many bytes. The line is all that is shown, cut or not."""
    return b"-> %5d  %s\n" % (number, line) + b" " * 10 + (mark or b" " * before) + b"^\n"


def told(name, words, errors, data):
    """A run of `debug` that is refused."""
    return Run(name, b"step\n", ["debug", *words], b"", errors, 2, data)


def runs():
    return helps() + wrong_words() + sources_for_verbs() + refused_programs() + refused_inputs() + marks() + unread_files() + typed_lines() + pages() + histories()


def helps():
    told = {
        ("--help",): (b"Usage: rinddecade <COMMAND>", b"debug", b"picture", b"profile", b"adapter", b"explain", b"port", b"--version"),
        ("help",): (b"Usage: rinddecade <COMMAND>",),
        ("debug", "--help"): (b"Usage: rinddecade debug [OPTIONS] <SOURCE>", *OF_A_RUN),
        ("help", "debug"): (b"Usage: rinddecade debug [OPTIONS] <SOURCE>", *OF_A_RUN),
        ("picture", "--help"): (b"Usage: rinddecade picture [OPTIONS] <SOURCE>", *OF_A_RUN, *OF_A_PICTURE),
        ("profile", "--help"): (b"Usage: rinddecade profile [OPTIONS] <SOURCE>", *OF_A_RUN, *OF_A_PROFILE),
        ("port", "--help"): (b"Usage: rinddecade port [OPTIONS] <SOURCE>", b"--to", b"--force"),
        ("picture", "first.ispc", "-h"): (b"Usage: rinddecade picture [OPTIONS] <SOURCE>",),
        ("adapter", "--help"): (b"Usage: rinddecade adapter",),
        ("explain", "--help"): (b"Usage: rinddecade explain <NAME>...",),
        ("--version",): (),
    }
    found = [Run(f"help: {' '.join(words)}", b"", words, has_words(*wanted), b"", data=FILES) for words, wanted in told.items()]
    return [*found, Run("the version", b"", ["--version"], VERSION, b"")]


def wrong_words():
    """Words that are refused before any file is read, and some that are refused by what the source has."""
    run = [["--width", "5"], ["--width"], ["--history", "0"], ["--history", "65537"], ["--history", "x"], ["--steps", "0"], ["--steps=10000001"]]
    run += [["--entry"], ["--input"], ["--nothing"], ["--width", "4", "--width", "8"], ["second.ispc"], ["--lane-pure"]]
    picture = [["--most", "0"], ["--most", ""], ["--most", "10000001"], ["--most", "-1"], ["--most", "1", "--most", "2"], ["--to"], ["--watch"]]
    picture += [["--to", "a.svg", "--to", "b.svg"], ["--watch", "x", "--watch", "x"], ["--commands"], ["--force", "--force"], ["--force=yes"]]
    picture += [["--watch", "nope"], ["--watch", "nope[1]"], ["--watch", ""], ["--watch", "x + 1"], ["--watch", "x y"]]
    picture += [["--from", "0"], ["--from", "10000001"], ["--from", "2", "--from", "2"], ["--row", "0"], ["--row", "10000001"], ["--row"], ["--row=x"]]
    wrong = [[], ["step"], ["first.ispc"], ["--nothing"], ["--", "debug", "first.ispc"], ["debug"], ["picture"], ["debug", "--watch", "x", "first.ispc"]]
    wrong += [["adapter", "first.ispc"], ["adapter", "--width", "8"], ["explain"], ["explain", "--nothing"], ["help", "step"]]
    wrong += [["debug", "first.ispc", *it] for it in run] + [["picture", "first.ispc", *it] for it in run + picture]
    wrong += [["profile", "first.ispc", "--from", "0"], ["profile", "first.ispc", "--color"], ["debug", "first.ispc", "--from", "2"], ["debug", "first.ispc", "--row", "2"]]
    told = begins_with(b"error: ")
    found = [Run(f"wrong: {' '.join(words)}", b"", words, b"", told, 2, FILES) for words in wrong]
    return found + [Run(f"wrong: --watch {name}", b"", ["picture", "first.ispc", "--watch", name], b"", b"error: " + why + b"\n", 2, FILES) for name, why in UNWATCHED.items()]


def sources_for_verbs():
    """A source in place of a verb, with how it is debugged; and a word that is no source's, with nothing more than what is wrong."""
    hint = lambda path: has_words(b"error: unrecognized subcommand", b"to debug a program: rinddecade debug %s\n" % path)
    ends = lambda told: [] if told.endswith(b"try '--help'.\n") else ["something follows"]
    rows = {"first.ispc": hint(b"first.ispc"), "a/b c.ispc": hint(b"a/b c.ispc"), "first.c": ends, "first.ispc.txt": ends, "step": ends}
    return [Run(f"in place of a verb: {word}", b"", [word], b"", told, 2, FILES) for word, told in rows.items()]


def refused_programs():
    """A refused source, and entries that are not there: what there is, and where it is explained."""
    several = b"void a() { }\nexport void b(uniform int n) { }\nexport uniform int c() { return 1; }\n"
    rate = b"2:21: S7 Rate\n" + marked(2, b"    uniform int x = programIndex;", 20) + explained(b"S7")
    none = b"entry: E1 NoEntry\nexported functions: none; write `export` before the function that the run begins with\n" + explained(b"E1")
    other = b"entry: E1 NoEntry\nno exported function is called a\nexported functions: b, c\n" + explained(b"E1")
    run = lambda name, source, errors, words=(): told(name, ["go.ispc", *words], errors, {"go.ispc": source})
    exported = lambda count: b"".join(b"export void f%d() { }\n" % number for number in range(count))
    named = lambda count, more=b"": b", ".join(b"f%d" % number for number in range(count)) + more
    listed = lambda names: other.replace(b"b, c", names)
    byte = b"1:1: S1 BadByte\n" + marked(1, b"@", 0) + explained(b"S1")
    return [
        run("as many entries as are listed", exported(NAMED), listed(named(NAMED)), ["--entry", "a"]),
        run("an entry more than are listed", exported(NAMED + 1), listed(named(NAMED, b", ..")), ["--entry", "a"]),
        run("some entries more than are listed", exported(NAMED + 3), listed(named(NAMED, b", ..")), ["--entry", "a"]),
        Run("a picture that watches in a source with a fault", b"", ["picture", "go.ispc", "--watch", "x"], b"", byte, 2, {"go.ispc": b"@\n"}),
        run("a source with a fault", RATE, rate),
        run("a source without an entry", HIDDEN, none),
        run("an entry that is not exported", several, other, ["--entry", "a"]),
        Run("a picture of a source with a fault", b"", ["picture", "go.ispc"], b"", rate, 2, {"go.ispc": RATE}),
    ]


def refused_inputs():
    """A refused input: the line with a mark under what is refused, of a long line the 60 bytes around; or how a parameter is given its value."""
    source = b"uniform int8 t[2];\nexport void go(uniform int n, uniform int8 a[]) { }\n"
    missing = b"input: I2 Missing n\nthe entry function has a parameter n: write a line `n = VALUE`, of an array with all its values, into "
    many = [b"%d" % (number % 100) for number in range(1000)]
    many[700] = b"300"
    long = b"a = " + b" ".join(many)
    at = long.index(b" 300") + 1
    cut = long[at - 30 : at + 30]
    rows = {
        "a value out of its range": (b"n = 5\na = 1 128 3\n", b"input 2: I3 Range\n" + marked(2, b"a = 1 128 3", 6) + explained(b"I3")),
        "a value that is no number": (b"n = five\n", b"input 1: I1 BadLine\n" + marked(1, b"n = five", 4) + explained(b"I1")),
        "a second value of a scalar": (b"n = 5 6\n", b"input 1: I1 BadLine\n" + marked(1, b"n = 5 6", 6) + explained(b"I1")),
        "no value of a scalar": (b"n =\n", b"input 1: I1 BadLine\n" + marked(1, b"n =", 3) + explained(b"I1")),
        "a name that no input gives": (b"n = 5\n  z = 1\n", b"input 2: I1 BadLine\n" + marked(2, b"  z = 1", 2) + explained(b"I1")),
        "no digits of a value": (b"n = -\n", b"input 1: I1 BadLine\n" + marked(1, b"n = -", 4) + explained(b"I1")),
        **{
            f"{value.decode()} of a name that no input gives": (b"z = %s\n" % value, b"input 1: I1 BadLine\n" + marked(1, b"z = %s" % value, 0) + explained(b"I1"))
            for value in (b"true", b"false", b"-7", b"0x1F")
        },
        "a line without =": (b"n 5\n", b"input 1: I1 BadLine\n" + marked(1, b"n 5", 0) + explained(b"I1")),
        "a value too many": (b"t = 1 2 3\n", b"input 1: I4 TooLarge\n" + marked(1, b"t = 1 2 3", 8) + explained(b"I4")),
        "a value behind tabs": (b"a =\t1\t128\n", b"input 1: I3 Range\n" + marked(1, b"a =\t1\t128", 6, b"   \t \t") + explained(b"I3")),
        "a value of a long line": (long + b"\n", b"input 1: I3 Range\n" + marked(1, b"..." + cut + b"...", 33) + explained(b"I3")),
        "no line of a parameter": (b"a =\n", missing + b"go.input\n" + explained(b"I2")),
    }
    found = []
    for name, (text, errors) in rows.items():
        found.append(told(name, ["go.ispc", "--input", "go.input"], errors, {"go.ispc": source, "go.input": text}))
    return [*found, told("no input", ["go.ispc"], missing + b"a file, and name that by --input FILE\n" + explained(b"I2"), {"go.ispc": source})]


def marks():
    """Where the mark stands: behind tabs, past column 80, behind letters of several bytes; and bytes that a terminal would do."""
    front, fault = b"    int x = 1 + ", b"@;"
    long = front + b"1 + " * 40 + fault
    rows = {
        "a mark behind tabs": (b"\t\tint x = @;", b"1:11: S1 BadByte\n" + marked(1, b"\t\tint x = @;", 10, b"\t\t" + b" " * 8)),
        "a mark past column 80": (long, b"1:177: S1 BadByte\n" + marked(1, b"..." + long[-60:], 61)),
        "a mark behind letters of several bytes": (b"/* \xc3\xa9\xe2\x82\xac */ @", b"1:13: S1 BadByte\n" + marked(1, b"/* \xc3\xa9\xe2\x82\xac */ @", 9)),
        "controls are masked": (b"/* \x1b[31m\x07\x7f\xc2\x9b */ @", b"1:17: S1 BadByte\n" + marked(1, b"/* ?[31m??\xc2? */ @", 16)),
        "bytes beside the controls stay": (b"/* ~\xc2\xa0\xc3\x9f\xc2\x80\x1f */ @", b"1:16: S1 BadByte\n" + marked(1, b"/* ~\xc2\xa0\xc3\x9f\xc2?? */ @", 13)),
    }
    return [told(name, ["go.ispc"], errors + explained(b"S1"), {"go.ispc": text}) for name, (text, errors) in rows.items()]


def unread_files():
    folder = {"folder/first.ispc": FIRST}
    odd = {"first.ispc": FIRST, "odd.commands": b"step\n\ngo  on\nstep\n", "quits.commands": b"step\nquit\ngo  on\n"}
    large = {"first.ispc": FIRST, "large.commands": b"\n" * (MOST_COMMANDS + 1), "most.commands": b"step\n".ljust(MOST_COMMANDS, b"\n")}
    return [
        told("a source that is not there", ["missing.ispc"], b"cannot read missing.ispc: there is no such file\n", {}),
        told("a source that is a folder", ["folder"], b"cannot read folder: it is a directory\n", folder),
        told("a source within a file", ["first.ispc/go.ispc"], b"cannot read first.ispc/go.ispc: a part of its path is no directory\n", FILES),
        told("a source whose name is too long", ["x" * 300], b"cannot read %s: its name is too long\n" % (b"x" * 300), {}),
        told("an input that is not there", ["first.ispc", "--input", "no.input"], b"cannot read no.input: there is no such file\n", FILES),
        told("a name with controls", ["\x1b[31m.ispc"], b"cannot read ?[31m.ispc: there is no such file\n", {}),
        Run(
            "too many commands",
            b"",
            ["picture", "first.ispc", "--commands", "large.commands"],
            b"",
            b"cannot read large.commands: there may be 1048576 bytes of commands at most\n",
            2,
            large,
        ),
        *(
            Run(f"commands of which one spells none, {verb}", b"", [verb, "first.ispc", "--commands", "odd.commands"], b"", b"error: --commands: no command of the debugger is spelled so: go  on\n", 2, odd)
            for verb in ("picture", "page")
        ),
        Run("commands of which one behind quit spells none", b"", ["picture", "first.ispc", "--commands", "quits.commands"], begins_with(PICTURE), b"", 0, odd),
        Run("the most commands", b"", ["picture", "first.ispc", "--commands", "most.commands"], begins_with(PICTURE), b"", 0, large),
    ]


def typed_lines():
    """Lines of the most bytes and of one more, with what follows them."""
    words = ["debug", "first.ispc"]
    stops = lambda lines: lambda text: [] if (text.count(TOO_LONG), text.count(b"C1 ")) == lines else [f"it answers {text[-300:]!r}"]
    long = b"x" * (MOST_TYPED + 1)
    is_full = lambda text: [] if text.count(FULL) == 1 and text.endswith(FULL + b"    break 3\n    ^\n") else [f"it ends {text[-300:]!r}"]
    is_shown_once = lambda text: [] if text.count(NOT_DISPLAYED) == 1 and text.endswith(NOT_DISPLAYED) else [f"it ends {text[-300:]!r}"]
    echoed = lambda count: b"echo " + b"z" * count + b"\n"
    is_echoed = lambda text: [] if text.endswith(b"\n" + b"z" * ECHOED + b"\n" + TOO_LONG) else [f"it ends {text[-400:]!r}"]
    in_colours = ["debug", "listed.ispc", "--color", "always"]
    is_whole = lambda text: [] if text.endswith(b"".join(b"   %5d  // line %d\n" % (number, number) for number in range(1, 20))) else [f"it ends {text[-200:]!r}"]
    lines = b"".join(b"// line %d\n" % number for number in range(1, 20)) + b"export void go() { }\n"
    return [
        Run("no list waits where no terminal is", b"set height 5\nlist 1,19\n", in_colours, is_whole, b"", 0, {"listed.ispc": lines}),
        Run("the longest text of `echo`, and one of a byte more", echoed(ECHOED) + echoed(ECHOED + 1), words, is_echoed, b"", 0, FILES),
        Run("a NUL in a line, and a line without its end", b"echo a\0b\nprint z", words, has_words(b"\na?b\n", b"C2 "), b"", 0, FILES),
        Run("a breakpoint more than there is room for", b"break 2\n" * STOPS + b"break 3\n", words, is_full, b"", 0, FILES),
        Run("a display more than there is room for", b"display 1 + 1\n" * (DISPLAYS + 1), words, is_shown_once, b"", 0, FILES),
        Run("a line of the most bytes", b"x" * MOST_TYPED + b"\n", words, stops((0, 1)), b"", 0, FILES),
        Run("a line of the most bytes without its end", b"x" * MOST_TYPED, words, stops((0, 1)), b"", 0, FILES),
        Run("a line of one byte more", long + b"\nquit\n", words, stops((1, 1)), b"", 0, FILES),
        Run("a line of one byte more without its end", long, words, stops((1, 1)), b"", 0, FILES),
        Run("a line of a mebibyte, and a command behind it", b"y" * (1 << 20) + b"\nprint z\n", words, has_words(TOO_LONG, b"C2 "), b"", 0, FILES),
    ]


def pages():
    """A page by all that may name it."""
    named = [["S7"], ["s7"], ["rate"], ["S7 Rate"], ["3:5: S7 Rate"], ["3:5:", "S7", "Rate"], ["S7:"], ["no", "S7"]]
    found = [Run(f"explain {' '.join(words)!r}", b"", ["explain", *words], begins_with(b"S7 Rate\n\n"), b"") for words in named]
    line = ["explain", "fault F1 DivideByZero lane 1: at 3:5 go depth 1 lanes 1111"]
    return [
        *found,
        Run("explain an answer", b"", line, begins_with(b"F1 DivideByZero\n\n"), b""),
        Run("explain another name", b"", ["explain", "nothing"], b"", EXPLAINED + b"nothing\n", 2),
        Run("explain several other names", b"", ["explain", "S14", "F6", "C13"], b"", EXPLAINED + b"S14\n", 2),
        Run("explain no name", b"", ["explain", ""], b"", EXPLAINED + b"\n", 2),
    ]


def histories():
    """The first `reverse-continue` goes back to the beginning, where no smaller history is asked for."""
    lines, data = b"continue\nreverse-continue\n", {"loop.ispc": LOOP}
    at_start = lambda text: [] if text.count(AT_START) == 2 else [f"it does not end at the beginning: {text[-300:]!r}"]
    no_start = lambda text: [] if text.count(AT_START) == 1 else [f"it goes back too far: {text[-300:]!r}"]
    return [
        Run("all of a run is taken back", lines, ["debug", "loop.ispc"], at_start, b"", 0, data),
        Run("64 events are taken back", lines, ["debug", "loop.ispc", "--history", "64"], no_start, b"", 0, data),
    ]


def results(built):
    """What takes devices, words that are not text, and files that are written."""
    return of_devices(built) + of_bytes(built) + of_written_files(built)


def of_bytes(built):
    """Words that are not text."""
    found = []
    for words in ([b"debug", b"\xff.ispc"], [b"\xff"], [b"explain", b"S7", b"\xc3"]):
        ran = subprocess.run([built, *words], env={}, stdin=subprocess.DEVNULL, capture_output=True)
        is_right = (ran.returncode, ran.stdout) == (2, b"") and ran.stderr.startswith(b"error: invalid UTF-8 was detected in one or more arguments")
        found.append(Result(f"words that are not text: {words}", is_right, [f"status {ran.returncode}, {ran.stderr!r}"]))
    return found


def of_devices(built):
    found = []
    for words in (["--help"], ["debug", "--help"], ["--version"], ["explain", "S7"], ["picture", "first.ispc", "--to", "/dev/full"]):
        with opened("/dev/full", os.O_WRONLY) as full, tempfile.TemporaryDirectory(prefix="desk-") as folder:
            pathlib.Path(folder, "first.ispc").write_bytes(FIRST)
            ran = subprocess.run([built, *words], cwd=folder, env={}, stdin=subprocess.DEVNULL, stdout=full, stderr=subprocess.PIPE)
        is_right = (ran.returncode, ran.stderr) == (4, b"write fault\n")
        found.append(Result(f"to a device that is full: {' '.join(words)}", is_right, [f"status {ran.returncode}, {ran.stderr!r}"]))
    return found


def of_written_files(built):
    """A picture is written over a picture, and over anything else only by --force; never over what it is made from."""
    other = b"<svg xmlns='http://www.w3.org/2000/svg'></svg>\n"
    begun = PICTURE + b'100" height="100"><circle r="9"/></svg>\n'
    styled = b"<style>\ntext{font:13px monospace;white-space:pre}\n.number{fill:#888}</style>\n"
    rows = [
        ("a new file", ["--to", "new.svg"], "new.svg", None, PICTURE),
        ("an empty file", ["--to", "new.svg"], "new.svg", b"", PICTURE),
        ("a page", ["--to", "new.html"], "new.html", None, b"<!DOCTYPE html>\n"),
        ("a file of another program", ["--to", "other.svg"], "other.svg", other, None),
        ("a file of one byte", ["--to", "other.svg"], "other.svg", b"x", None),
        ("a file of another program that begins alike", ["--to", "other.svg"], "other.svg", begun, None),
        ("a file of another program that has such a style", ["--to", "other.svg"], "other.svg", styled, None),
        ("a file of another program, by --force", ["--to", "other.svg", "--force"], "other.svg", other, PICTURE),
        ("the source", ["--to", "first.ispc"], "first.ispc", FIRST, None),
        ("the source, by --force", ["--to", "first.ispc", "--force"], "first.ispc", FIRST, None),
        ("the source by another path", ["--to", "./first.ispc"], "first.ispc", FIRST, None),
        ("the source by another path, by --force", ["--to", "./first.ispc", "--force"], "first.ispc", FIRST, None),
        ("the commands, by --force", ["--commands", "go.commands", "--to", "go.commands", "--force"], "go.commands", b"step\n", None),
        ("the commands by another path, by --force", ["--commands", "go.commands", "--to", ".//go.commands", "--force"], "go.commands", b"step\n", None),
    ]
    found = [written(built, name, words, file, before, front) for name, words, file, before, front in rows]
    found += [linked(built, verb, link) for verb in ("picture", "page", "profile", "port") for link in (os.symlink, os.link)]
    found += [ended_by_two(built), returned(built), written_twice(built, "new.svg"), written_twice(built, "new.html"), folder_as_file(built)]
    return found + [as_on_output(built, words) for words in TO_FILES]


def over_made(verb, path):
    """Why a file is not written over that something is made from."""
    return b"error: the %s would be written over what it is made from: %s\n" % (MADE[verb], path.encode())


def over_held(verb, path):
    """Why a file is not written over that holds something."""
    return b"error: only --force writes over a file that holds something%s: %s\n" % (HELD[verb], path.encode())


def drawn(built, folder, words):
    pathlib.Path(folder, "first.ispc").write_bytes(FIRST)
    return subprocess.run([built, "picture", "first.ispc", *words], cwd=folder, env={}, stdin=subprocess.DEVNULL, capture_output=True)


def written(built, name, words, file, before, front):
    """A picture to a file that has held something. It begins so; or that is refused, and the file has what it had."""
    with tempfile.TemporaryDirectory(prefix="desk-") as folder:
        path = pathlib.Path(folder, file)
        if before is not None:
            path.write_bytes(before)
        ran = drawn(built, folder, words)
        after = path.read_bytes()
    if front is None:
        path = words[words.index("--to") + 1]
        told = (over_made if file in ("first.ispc", "go.commands") else over_held)("picture", path)
        is_right = (ran.returncode, ran.stderr, after) == (2, told, before)
    else:
        is_right = (ran.returncode, ran.stdout, ran.stderr) == (0, b"", b"") and after.startswith(front)
    return Result(f"a picture to {name}", is_right, [f"status {ran.returncode}, {ran.stderr!r}, {after[:100]!r}"])


def linked(built, verb, link):
    """What is written goes by --force over no other name of the source."""
    with tempfile.TemporaryDirectory(prefix="desk-") as folder:
        path = pathlib.Path(folder, "first.ispc")
        path.write_bytes(FIRST)
        link(path, pathlib.Path(folder, "other.svg"))
        ran = subprocess.run([built, verb, "first.ispc", "--to", "other.svg", "--force"], cwd=folder, env={}, stdin=subprocess.DEVNULL, capture_output=True)
        is_right = (ran.returncode, ran.stderr, path.read_bytes()) == (2, over_made(verb, "other.svg"), FIRST)
    return Result(f"{verb} over another name of its source, made by {link.__name__}", is_right, [f"status {ran.returncode}, {ran.stderr!r}"])


def ended_by_two(built):
    """A page of a source whose lines end by a carriage return and a line feed is that of the source with line feeds alone."""
    pages = []
    for text in (FIRST, FIRST.replace(b"\n", b"\r\n")):
        with tempfile.TemporaryDirectory(prefix="desk-") as folder:
            pathlib.Path(folder, "first.ispc").write_bytes(text)
            pages.append(subprocess.run([built, "page", "first.ispc"], cwd=folder, env={}, stdin=subprocess.DEVNULL, capture_output=True).stdout)
    return Result("a page of lines that end by two characters", pages[0] == pages[1] != b"", [f"{len(it)} bytes" for it in pages])


def returned(built):
    """A carriage return within a line stays in the source of a page, as another control does: both are shown by the mark of what is no text."""
    with tempfile.TemporaryDirectory(prefix="desk-") as folder:
        pathlib.Path(folder, "first.ispc").write_bytes(b"export void go() {\r\n    int x = 1;\r// \x07\r\r\n}\n")
        page = subprocess.run([built, "page", "first.ispc"], cwd=folder, env={}, stdin=subprocess.DEVNULL, capture_output=True).stdout
    mark = "\ufffd".encode()
    wanted = b'"source":"export void go() {\\n    int x = 1;' + mark + b"// " + mark * 2 + b'\\n}\\n"'
    return Result("a page of a line with a carriage return", wanted in page, [f"{len(page)} bytes have not {wanted!r}"])


def written_twice(built, file):
    """A picture over another one of a longer run."""
    with tempfile.TemporaryDirectory(prefix="desk-") as folder:
        once = drawn(built, folder, ["--to", file, "--watch", "x"])
        again = drawn(built, folder, ["--to", file])
        alone = drawn(built, folder, ["--to", f"alone-{file}"])
        texts = [pathlib.Path(folder, it).read_bytes() for it in (file, f"alone-{file}")]
    why = [f"status {it.returncode}, {it.stderr!r}" for it in (once, again, alone) if it.returncode or it.stderr]
    why += differences("the file", texts[0], texts[1])
    return Result(f"a picture over a picture, {file}", not why, why)


def folder_as_file(built):
    with tempfile.TemporaryDirectory(prefix="desk-") as folder:
        pathlib.Path(folder, "pictures").mkdir()
        ran = drawn(built, folder, ["--to", "pictures"])
    is_right = (ran.returncode, ran.stderr) == (2, b"cannot write pictures: it is a directory\n")
    return Result("a picture to a folder", is_right, [f"status {ran.returncode}, {ran.stderr!r}"])


def as_on_output(built, words):
    """A new file and an empty one have what standard output has, and by --force one that held something else, which is kept without; so is the source.
    A page is written over a page."""
    verb, *options = words
    called = lambda folder, *more: subprocess.run([built, verb, "first.ispc", *options, *more], cwd=folder, env={}, stdin=subprocess.DEVNULL, capture_output=True)
    rows = [("new", None, [], True), ("empty", b"", [], True), ("other", b"x", [], False), ("forced", b"other\n" * 9999, ["--force"], True)]
    rows += [("first.ispc", FIRST, force, False) for force in ([], ["--force"])]
    with tempfile.TemporaryDirectory(prefix="desk-") as folder:
        pathlib.Path(folder, "first.ispc").write_bytes(FIRST)
        whole = called(folder).stdout
        why = [] if whole else ["standard output has nothing"]
        rows.append(("again", whole, [], verb == "page"))
        for file, before, force, is_written in rows:
            path = pathlib.Path(folder, file)
            if before is not None:
                path.write_bytes(before)
            ran = called(folder, "--to", file, *force)
            after = path.read_bytes() if path.exists() else None
            told = (over_made if file == "first.ispc" else over_held)(verb, file)
            is_right = (ran.returncode, ran.stderr, after) == ((0, b"", whole) if is_written else (2, told, before))
            why += [] if is_right and ran.stdout == b"" else [f"{file} {' '.join(force)}: status {ran.returncode}, {ran.stderr!r}, {(after or b'')[:100]!r}"]
    return Result(f"files as standard output: {' '.join(words)}", not why, why)
