"""The prompt on a terminal: colours, which without their codes leave each session of sessions/prompts as it is and come only where they are wanted;
and long lists, which wait behind each page where both ends are a terminal, go on by an empty line, end by `q` and go on to their end by `c`, also
where these were typed ahead of them."""

import os
import pathlib
import re
import select
import subprocess
import tempfile
import termios
import tty

from . import prompts
from .calls import all_of
from .program import begins_with
from .tried import Result, Run, differences

CODES = re.compile(rb"\x1b\[\d+m")
PROMPT, MORE = b"(rinddecade) ", b"--Type <RET> for more, q to quit, c to continue without paging--"
LINES = b"".join(b"// line %d\n" % number for number in range(1, 20)) + b"export void go() { }\n"
LISTED = [b"   %5d  // line %d\n" % (number, number) for number in range(1, 20)]
HEIGHT = 8  # lines of a page, of which the last one is that of the question
BRANCHES = b"""export void go() {
    int x = 1;
    if (programIndex == 1)
        x = 2;
}
"""
# What two moves show in colours: the arrow and the mark in cyan, active lanes in green and others in grey, new values in yellow.
IN_COLOURS = b"""go at go.ispc:4:9, step 2, lanes \x1b[90m.\x1b[32m#\x1b[90m..\x1b[0m
       2      int x = 1;
       3      if (programIndex == 1)
\x1b[36m->\x1b[0m     4          x = 2;
                  \x1b[36m^\x1b[0m
       5  }
  x = \x1b[33m(1)\x1b[0m \x1b[33m1\x1b[0m \x1b[33m(1)\x1b[0m \x1b[33m(1)\x1b[0m
go at go.ispc:5:1, step 3, lanes \x1b[32m####\x1b[0m
       3      if (programIndex == 1)
       4          x = 2;
\x1b[36m->\x1b[0m     5  }
          \x1b[36m^\x1b[0m
  x = (1) 1 (1) (1) -> \x1b[33m1\x1b[0m \x1b[33m2\x1b[0m \x1b[33m1\x1b[0m \x1b[33m1\x1b[0m
"""


def runs(root):
    """Each session in colours, which without their codes is the session; and what `--color` takes."""
    found = [in_colours(session) for session in prompts.sessions(root)]
    data = {"go.ispc": BRANCHES}
    ends = lambda text: [] if text.endswith(IN_COLOURS) else differences("the end", text[-len(IN_COLOURS) :], IN_COLOURS)
    plain = lambda text: [] if b"\x1b" not in text else [f"it has codes: {text[-200:]!r}"]
    words = ["debug", "go.ispc", "--color"]
    found += [Run("colours of marks, arrows and changed values", b"step 2\nstep\n", [*words, "always"], ends, b"", 0, data)]
    found += [Run(f"no colours by {how}", b"step 2\nstep\n", [*words, how], plain, b"", 0, data) for how in ("auto", "never")]
    return [*found, Run("another word for colours", b"", [*words, "blue"], b"", begins_with(b"error: --color takes auto, always or never, and not blue"), 2, data)]


def in_colours(session):
    judge = lambda text: differences("without codes", CODES.sub(b"", text), session.shown) or ([] if CODES.search(text) else ["it has no colours"])
    words = ["debug", session.source_name, *session.options, "--color", "always"]
    return Run(f"in colours: {session.name}", session.lines, words, judge, b"", data={session.source_name: session.source})


def results(built):
    ahead = [paged(built, f"{name}, typed at once", lines + b"quit\n", wanted, is_raw=True) for name, lines, wanted in PAGED[:-1]]
    pages = [paged(built, *row) for row in PAGED + OF_HEIGHTS] + ahead
    return [coloured(built, *row) for row in WHERE] + pages + [of_lists(built), asked(built), left(built), *profiled(built)]


# The environment, and whether a terminal then has colours.
WHERE = [
    ("a terminal", {"TERM": "xterm"}, True),
    ("a terminal, with NO_COLOR", {"TERM": "xterm", "NO_COLOR": "1"}, False),
    ("a terminal, with an empty NO_COLOR", {"TERM": "xterm", "NO_COLOR": ""}, True),
    ("a dumb terminal", {"TERM": "dumb"}, False),
    ("a terminal without a name", {}, False),
]


def coloured(built, name, environment, wanted):
    text = typed(built, BRANCHES, b"step 2\nstep\n", environment)
    is_right = bool(CODES.search(text)) == wanted and (not wanted or IN_COLOURS.splitlines()[-1] in text)
    return Result(f"colours on {name}", is_right, [f"it shows {text[-300:]!r}"])


def page(front, count):
    return b"".join(LISTED[front : front + count])


# What is typed, and what is shown for it on pages of 8 lines.
PAGED = [
    ("an empty line shows a page more", b"list 1,19\n\n\n", page(0, 7) + MORE + page(7, 7) + MORE + page(14, 5) + PROMPT),
    ("q ends the list", b"list 1,19\nq\nlist 1,3\n", page(0, 7) + MORE + PROMPT + page(0, 3) + PROMPT),
    ("c shows the rest", b"list 1,19\nc\n", page(0, 7) + MORE + page(7, 12) + PROMPT),
    ("behind c the next list waits", b"list 1,19\nc\nlist 1,9\nq\n", page(0, 7) + MORE + page(7, 12) + PROMPT + page(0, 7) + MORE + PROMPT),
    ("a list of a page does not wait", b"list 1,7\n", page(0, 7) + PROMPT),
    ("set height 0", b"set height 0\nlist 1,19\n", PROMPT + page(0, 19) + PROMPT),
    ("set height unlimited", b"set height unlimited\nlist 1,19\n", PROMPT + page(0, 19) + PROMPT),
    ("set height 11", b"set height 11\nlist 1,19\n\n", PROMPT + page(0, 10) + MORE + page(10, 9) + PROMPT),
    ("set pagination off and on", b"set pagination off\nlist 1,19\nset pagination on\nlist 1,8\n\n", PROMPT + page(0, 19) + PROMPT + PROMPT + page(0, 7) + MORE + page(7, 1) + PROMPT),
    ("the input ends where the terminal waits", b"list 1,19\n", page(0, 7) + MORE + PROMPT),
]
# The same where the environment has another height: a page has a line at least beside that of the question. The first `c` answers what is shown
# before the first prompt.
OF_HEIGHTS = [
    ("pages of one line", b"c\nlist 1,3\n\n\n", page(0, 1) + MORE + page(1, 1) + MORE + page(2, 1) + PROMPT, 2),
    ("a terminal of one line has such pages", b"c\nlist 1,3\n\nq\n", page(0, 1) + MORE + page(1, 1) + MORE + PROMPT, 1),
    ("a terminal of one line, and set height 11", b"c\nset height 11\nlist 1,19\n\n", PROMPT + page(0, 10) + MORE + page(10, 9) + PROMPT, 1),
    ("a terminal of no height does not wait", b"list 1,19\n", page(0, 19) + PROMPT, 0),
]


def paged(built, name, lines, wanted, height=HEIGHT, is_raw=False):
    """A list on a terminal at both ends. What comes before the first prompt is not looked at."""
    text = typed(built, LINES, lines, {"LINES": str(height)}, is_both=True, is_raw=is_raw)
    came = text.partition(PROMPT)[2].rstrip(b"\n")
    return Result(f"a long list: {name}", came == wanted, differences("the terminal", came, wanted))


def of_lists(built):
    """Lines that a breakpoint does begin a page each: four lists of five lines do not wait, though one page has eleven."""
    lines = b"break 3\ncommands\n" + b"list 1,5\n" * 4 + b"end\ncontinue\n"
    text = typed(built, b"export void go() {\n    int x = 1;\n    x = 2;\n\n}\n", lines, {"LINES": "12"}, is_both=True)
    count = text.count(b"       1  export void go() {\n")
    is_right = MORE not in text and count >= 5
    return Result("lines of breakpoints begin a page each", is_right, [f"{count} lists, {text[-300:]!r}"])


def asked(built):
    """Before each line of a list `>` is shown, of one within another too, and before each other line what asks for a command."""
    lines = b"break 3\ncommands\nprint x\ncommands 1\nend\nend\nprint 1\n"
    text = typed(built, BRANCHES, lines, {}, is_both=True)
    wanted = PROMPT + b"lines for 1, up to a line `end`:\n" + b">" * 4 + PROMPT + b"1 = 1\n" + PROMPT
    return Result("a terminal asks for the lines of a list", wanted in text, [f"it shows {text[-300:]!r}"])


def left(built):
    """Where no line comes a terminal's line is ended."""
    text = typed(built, BRANCHES, b"step\n", {}, is_both=True)
    return Result("a terminal's line is ended at the end", text.endswith(b"\n" + PROMPT + b"\n"), [f"it shows {text[-300:]!r}"])


def profiled(built):
    """A profile has colours on a terminal, and none in a file that is written there."""
    found = []
    for name, words, wanted in (("a terminal", [], True), ("a file at a terminal", ["--to", "to"], False)):
        ours, theirs = os.openpty()
        with tempfile.TemporaryDirectory(prefix="terminal-") as folder:
            pathlib.Path(folder, "go.ispc").write_bytes(BRANCHES)
            subprocess.run([built, "profile", "go.ispc", *words], cwd=folder, env={"TERM": "xterm"}, stdin=subprocess.DEVNULL, stdout=theirs, stderr=theirs)
            text = pathlib.Path(folder, "to").read_bytes() if words else os.read(ours, 65536)
        for it in (ours, theirs):
            os.close(it)
        is_right = text.startswith(b" line") and bool(CODES.search(text)) == wanted
        found.append(Result(f"colours of a profile on {name}", is_right, [f"it shows {text[-300:]!r}"]))
    return found


def typed(built, source, lines, environment, is_both=False, is_raw=False):
    """What a terminal shows for lines that are typed there, or that come from a pipe. It shows nothing of what is typed itself. A raw one hands over
    all at once, and knows no end."""
    ours, theirs = os.openpty()
    if is_raw:
        tty.setraw(theirs)
    else:
        set_quiet(theirs)
    with tempfile.TemporaryDirectory(prefix="terminal-") as folder:
        pathlib.Path(folder, "go.ispc").write_bytes(source)
        how = {"cwd": folder, "env": environment, "stdout": theirs, "stdin": theirs if is_both else subprocess.PIPE}
        with subprocess.Popen([built, "debug", "go.ispc"], **how) as process:
            os.close(theirs)
            if is_both:
                os.write(ours, lines if is_raw else lines + b"\x04\x04")
            else:
                process.stdin.write(lines)
                process.stdin.close()
            text = all_of(ours)
    os.close(ours)
    return text


def is_ready(stream, seconds):
    """Whether something is to be read within some seconds, or the end; of a file of whatever number, which `select` takes below 1,024 alone."""
    waiting = select.poll()
    waiting.register(stream, select.POLLIN)
    return bool(waiting.poll(seconds * 1000))


def set_quiet(terminal):
    """A terminal that gives lines, and neither shows what is typed nor changes what is shown."""
    modes = termios.tcgetattr(terminal)
    modes[1] &= ~termios.OPOST
    modes[3] &= ~termios.ECHO
    termios.tcsetattr(terminal, termios.TCSANOW, modes)
