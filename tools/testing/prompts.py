"""The sessions of sessions/prompts/*.prompt: sources with options, the lines that are typed at the prompt, and what it shows.

A session begins with `=== NAME`, or `=== NAME | OPTIONS`. The source follows, then a line `%%`, what is shown before the first line, and
the lines behind `> `, each with what is shown for it. Blank lines may stand at its end. docs/FROM_GDB.md has lines that users of GDB type:
no line of its tables is answered that there is no such command, and those of a row that names one are answered with it. On a terminal a long
`continue` shows how many moves it has made.

sessions/prompts/typed.lines has lines that users of GDB type, by subject, each with what it leads to: a source, a line `%%`, the lines that are
typed before each of them, and behind a line `%% SUBJECT` lines `TYPED => TEXT`. Each is typed in a session of its own, and answered by a
text that has this one, or by none where it is `(silence)`; never by the usage of a command alone.
"""

import os
import pathlib
import re
import subprocess
import tempfile
import tty

from . import asked_in_frames, asking, deep_frames, digits, listing, lists_behind_moves, numbering, parted_frames, past_the_end, printing, returning, told_reasons
from .calls import all_of
from .tried import Result, Run, differences, shown

CRATE = "rinddecade"
PARTS = (
    digits, printing, asking, returning, numbering, listing, past_the_end, deep_frames, lists_behind_moves, told_reasons, asked_in_frames,
    parted_frames,
)
HEAD, LINES, LINE = "=== ", "%%", "> "
PAGE = "docs/FROM_GDB.md"
HABITS, LEADS_TO, SILENCE, USAGE = "sessions/prompts/typed.lines", " => ", "(silence)", b"the usage is"
MARK = "echo ----"
TYPED = re.compile(r"^\| (`[^|]*`) \|", re.M)
UNKNOWN = b"there is no such command"
TOO_LONG = b"C1 BadCommand: a line of commands has at most 256 bytes"
SOURCE = b"""uniform int total = 0;
uniform int table[4];

int twice(int n) {
    return n + n;
}

export void go() {
    int x = programIndex * 3;
    int y = twice(x);
    table[1] = 7;
    total += reduce_add(y);
}
"""


# A loop of two moves a round, and what a terminal shows of two moves of `continue` with a limit of 100,500 moves.
LONG = b"""export void go() {
    uniform int n = 0;
    while (n < 51000)
        n += 1;
    n = 7;
}
"""
TYPED_LINES = b"break 5\ncontinue\ncontinue\n"
PROGRESS, CLEARED = b"\r100,000 moves", b"\r                \r"
SHOWN = b"""go at long.ispc:2:5, step 0, lanes ####
       1  export void go() {
->     2      uniform int n = 0;
              ^
       3      while (n < 51000)
       4          n += 1;
breakpoint 1 at line 5
%s%sthe step limit of one command is reached:
go at long.ispc:4:9, step 100500, lanes ####
       2      uniform int n = 0;
       3      while (n < 51000)
->     4          n += 1;
                  ^
       5      n = 7;
       6  }
  n = 50249
%sbreakpoint 1: go at long.ispc:5:5, step 102002, lanes ####
       3      while (n < 51000)
       4          n += 1;
->     5      n = 7;
              ^
       6  }
  n = 50249 -> 51000
"""


class Session:
    """A session: its name, the options, the source, the lines, and all that is shown."""

    def __init__(self, file, number, lines):
        head, _, options = lines[0].removeprefix(HEAD).partition(" | ")
        self.name, self.options = f"{file.stem}: {head}", options.split()
        self.source_name = f"{file.stem}-{number:03}.ispc"
        self.is_whole = LINES in lines
        ends = lines.index(LINES) if self.is_whole else len(lines)
        said = lines[ends + 1 :]
        self.source = "".join(f"{it}\n" for it in lines[1:ends]).encode()
        self.lines = as_bytes(it.removeprefix(LINE).replace("FILE", self.source_name) for it in said if it.startswith(LINE))
        self.shown = as_bytes(it.replace("FILE", self.source_name) for it in said if not it.startswith(LINE))

    def run(self):
        return Run(self.name, self.lines, ["debug", self.source_name, *self.options], self.shown, b"", data={self.source_name: self.source})


class Habits:
    """Lines that users of GDB type, each with what it leads to, on a source behind lines that are typed before each."""

    def __init__(self, root):
        lines = (root / HABITS).read_text(encoding="utf-8").splitlines()
        self.source_name = "typed.ispc"
        named = [it.replace("FILE", self.source_name) for it in lines]
        ends = named.index(LINES)
        self.source = as_bytes(named[:ends])
        self.before = [it.removeprefix(LINE) for it in named[ends + 1 :] if it.startswith(LINE)]
        self.rows = [it.split(LEADS_TO, 1) for it in named[ends + 1 :] if LEADS_TO in it]

    def run(self, typed, leads_to):
        lines = as_bytes([*self.before, MARK, typed, MARK])
        judge = lambda text: is_led_to(text, leads_to)
        return Run(f"{HABITS}: {typed}", lines, ["debug", self.source_name], judge, b"", data={self.source_name: self.source})


def is_led_to(text, leads_to):
    """What is wrong with all that is shown where a line should lead to a text."""
    answer = text.split(b"----\n")[1]
    is_right = answer == b"" if leads_to == SILENCE else leads_to.encode() in answer
    return [] if is_right and USAGE not in answer else [f"it does not lead to {leads_to!r}:", *shown(answer)]


def as_bytes(lines):
    return "".join(f"{line}\n" for line in lines).encode()


def sessions(root):
    """All sessions, in the order of their files."""
    found = []
    for file in sorted((root / "sessions/prompts").glob("*.prompt")):
        texts = ("\n" + file.read_text(encoding="utf-8")).split("\n" + HEAD)[1:]
        found += [Session(file, number, (HEAD + text).rstrip("\n").split("\n")) for number, text in enumerate(texts)]
    return found


def typed(root):
    """The lines of the first columns of docs/FROM_GDB.md."""
    return [line for cell in TYPED.findall((root / PAGE).read_text(encoding="utf-8")) for line in re.findall("`([^`]+)`", cell)]


def is_known(text):
    return [] if UNKNOWN not in text else ["a line is answered that there is no such command:", *shown(text)]


def check(root):
    """A result for each session, which has lines and a name that no other has, and one for the page, which has lines."""
    found = sessions(root)
    names = [it.name for it in found]
    results = [Result(it.name, it.is_whole and names.count(it.name) == 1, ["it has no lines, or its name is there twice"]) for it in found]
    habits = Habits(root).rows
    results.append(Result(HABITS, len(habits) > 150 and len({it[0] for it in habits}) == len(habits), ["it has few lines, or one twice"]))
    return results + [Result(PAGE, len(typed(root)) > 60, ["it has few lines"])]


def runs(root):
    """A run for each session, and one for each line that users of GDB type."""
    page = [Run(f"{PAGE}: {line}", as_bytes([line]), ["debug", "go.ispc"], is_known, b"", data={"go.ispc": SOURCE}) for line in typed(root)]
    habits = Habits(root)
    found = [it.run() for it in sessions(root)] + page + [habits.run(*row) for row in habits.rows] + [checkpoints(), *long_lines()]
    return found + [run for it in PARTS for run in it.runs()]


def checkpoints():
    """As many checkpoints as there may be, and one more, which is refused by a name; one that goes makes room for the next number."""
    lines = b"checkpoint\n" * 65 + b"delete checkpoint 7\ncheckpoint\ninfo checkpoints\n"
    noted = b"".join(b"checkpoint %d at step 0\n" % number for number in range(1, 65))
    listed = b"".join(b"%d  step 0\n" % number for number in range(1, 66) if number != 7)
    full = b"CheckpointsFull: 64 checkpoints are there; `delete checkpoint N` makes room.\n"
    shown_then = noted + full + b"noted no more\ncheckpoint 65 at step 0\n" + listed
    judge = lambda text: [] if text.endswith(shown_then) else ["64 checkpoints are not noted, or more are:", *shown(text)]
    return Run("64 checkpoints are noted, and no more", lines, ["debug", "go.ispc"], judge, b"", data={"go.ispc": SOURCE})


def long_lines():
    """A line that stands for a command line of 256 bytes is done, and one that stands for a byte more is told to be too long."""
    return [long_line(*row) for row in (("p ", "print  "), ("print ", "print  "), ("p/x ", "print/x  "), ("display ", "print  "))]


def long_line(typed, own):
    """A sum behind such words, which has 256 bytes with the words that they stand for, and one with a byte more."""
    room = 256 - len(own)
    fitting = "+".join(["1"] * (room // 2)).rjust(room, "1")
    judge = lambda text: [] if [TOO_LONG in it for it in text.split(b"----\n")[1:3]] == [False, True] else ["the limit is another one:", *shown(text)]
    lines = as_bytes([MARK, typed + fitting, MARK, f"{typed}1{fitting}", MARK])
    return Run(f"a long line behind {typed}", lines, ["debug", "go.ispc"], judge, b"", data={"go.ispc": SOURCE})


def results(program):
    """A long `continue` on a terminal: it shows how many moves it has made, and takes that off the line before the answer."""
    ours, theirs = os.openpty()
    tty.setraw(theirs)
    with tempfile.TemporaryDirectory(prefix="long-") as folder:
        pathlib.Path(folder, "long.ispc").write_bytes(LONG)
        words = [program, "debug", "long.ispc", "--steps", "100500"]
        with subprocess.Popen(words, cwd=folder, env={}, stdin=subprocess.PIPE, stdout=theirs) as process:
            os.close(theirs)
            process.stdin.write(TYPED_LINES)
            process.stdin.close()
            text = all_of(ours)
    os.close(ours)
    why = [f"status {process.returncode}"] if process.returncode else []
    why += differences("the terminal", text, SHOWN % (PROGRESS, CLEARED, CLEARED))
    return [Result("a long continue shows its progress on a terminal", not why, why)]
