"""What Ctrl-D and Ctrl-C do at a keyboard, as docs/COMMANDS.md has it: the programs run on a terminal of their own, at which keys are pressed."""

import fcntl
import os
import pathlib
import signal
import subprocess
import tempfile
import termios
import time

from .terminals import is_ready, set_quiet
from .tried import Result, shown

CTRL_C, CTRL_D = b"\x03", b"\x04"
SOURCE = b"export void go() {\n    int x = programIndex * 3;\n    x += 1;\n}\n"
ENDLESS = b"export void go() {\n    uniform int i = 0;\n    while (true) {\n        i += 1;\n    }\n}\n"
LINES = b"".join(b"// line %d\n" % number for number in range(1, 20)) + SOURCE
# What the first step shows: of the program for scripts, and of the debugger.
STEP, SHOWN = b"at 3:5 go depth 1 lanes 1111\n", b"step 1, lanes ####"
PROMPT, MORE = b"(rinddecade) ", b"--Type <RET> for more"
# Lines whose commands take many times as long as the wait before the next key.
LONG = b"continue\n" * 200
WAITS, SECONDS = 0.3, 60


class Terminal:
    """A program on a terminal, which is its controlling one, so that keys can end it."""

    def __init__(self, words, folder):
        self.ours, theirs = os.openpty()
        set_quiet(theirs)

        def control():
            # (what runs behind a shell's & ignores this signal, and so does what it begins)
            signal.signal(signal.SIGINT, signal.SIG_DFL)
            fcntl.ioctl(0, termios.TIOCSCTTY, 0)

        streams = {"stdin": theirs, "stdout": theirs, "stderr": theirs}
        self.process = subprocess.Popen(words, cwd=folder, env={"LINES": "8"}, start_new_session=True, preexec_fn=control, **streams)
        os.close(theirs)
        self.text, self.has_ended = b"", False

    def press(self, keys):
        os.write(self.ours, keys)

    def read(self, seconds):
        """Reads what it shows, for so long at most. Linux tells the end of a terminal by a fault."""
        if not is_ready(self.ours, seconds):
            return False
        try:
            piece = os.read(self.ours, 65536)
        except OSError:
            piece = b""
        self.text += piece
        self.has_ended = not piece
        return bool(piece)

    def comes(self, wanted):
        """Whether it shows this, sooner or later."""
        late = time.monotonic() + SECONDS
        while wanted not in self.text and not self.has_ended and time.monotonic() < late:
            self.read(1)
        return wanted in self.text

    def goes_on(self):
        """Whether it still runs a moment later."""
        late = time.monotonic() + WAITS
        while not self.has_ended and (left := late - time.monotonic()) > 0:
            self.read(left)
        return self.process.poll() is None

    def status(self):
        """How it ends, or None where it goes on."""
        late = time.monotonic() + SECONDS
        while not self.has_ended and time.monotonic() < late:
            self.read(1)
        return self.process.wait(SECONDS) if self.has_ended else None

    def end(self):
        if self.process.poll() is None:
            self.process.kill()
        self.process.wait()
        os.close(self.ours)


def tried(name, words, source, steps, status=0):
    """A program at whose terminal keys are pressed, each after some text has come; nothing follows the last keys but the end."""
    with tempfile.TemporaryDirectory(prefix="keyboard-") as folder:
        pathlib.Path(folder, "go.ispc").write_bytes(source)
        terminal = Terminal(words, folder)
        try:
            why = []
            for wanted, keys in steps:
                why += [] if terminal.comes(wanted) else [f"{wanted!r} does not come"]
                if wanted == b"":
                    why += [] if terminal.goes_on() else ["it ends too early"]
                terminal.press(keys)
            ended = terminal.status()
            why += [] if ended == status else [f"it ends with {ended}, and {status} is wanted" if ended is not None else "it does not end"]
        except OSError as fault:
            why = [str(fault)]
        finally:
            terminal.end()
    return Result(f"at a keyboard: {name}", not why, [*why, *shown(terminal.text)] if why else [])


def of_scripts(program):
    """The program for scripts: with a file, and with all of its text from the keyboard."""
    at_file, by_signal = [program, "go.ispc"], -signal.SIGINT
    long_steps = [*at_file, "--steps", "10000000"]
    return [
        tried("one Ctrl-D ends scripts", at_file, SOURCE, [(b"", CTRL_D)]),
        tried("one Ctrl-D behind a line ends scripts", at_file, SOURCE, [(b"", b"step\n"), (STEP, CTRL_D)]),
        tried("one Ctrl-D behind lines ends scripts", at_file, SOURCE, [(b"", b"step\nstep\nprint x\n" + CTRL_D), (b"x = 1 4 7 10\n", b"")]),
        tried("Ctrl-D behind a text ends scripts the second time", at_file, SOURCE, [(b"", b"step" + CTRL_D), (b"", CTRL_D), (STEP, b"")]),
        tried("one Ctrl-D ends a script with its source", [program], b"", [(b"", SOURCE + b"%%\nstep\n" + CTRL_D), (STEP, b"")]),
        tried("Ctrl-C ends scripts", at_file, SOURCE, [(b"", b"step\n"), (STEP, CTRL_C)], by_signal),
        tried("Ctrl-C ends a long command of scripts", long_steps, ENDLESS, [(b"", b"step\n"), (STEP, LONG), (b"", CTRL_C)], by_signal),
    ]


def of_debugger(program):
    """The debugger, and the adapter."""
    debug, by_signal = [program, "debug", "go.ispc"], -signal.SIGINT
    long_steps = [*debug, "--steps", "10000000"]
    return [
        tried("one Ctrl-D ends the debugger", debug, SOURCE, [(PROMPT, CTRL_D)]),
        tried("one Ctrl-D behind a line ends the debugger", debug, SOURCE, [(PROMPT, b"step\n"), (SHOWN, CTRL_D)]),
        tried("one Ctrl-D behind lines ends the debugger", debug, SOURCE, [(PROMPT, b"step\nstep\nprint x\n" + CTRL_D), (b"x = 1 4 7 10\n", b"")]),
        # The second one hands the line over, behind which the third stands on an empty line.
        tried("Ctrl-D behind a text ends the debugger the third time", debug, SOURCE, [(PROMPT, b"step" + CTRL_D), (b"", CTRL_D), (SHOWN, CTRL_D)]),
        tried("one Ctrl-D ends a list that waits, and the next one the debugger", debug, LINES, [(PROMPT, b"list 1,19\n"), (MORE, CTRL_D), (b"", CTRL_D)]),
        tried("Ctrl-C ends the debugger", debug, SOURCE, [(PROMPT, b"step\n"), (SHOWN, CTRL_C)], by_signal),
        tried("Ctrl-C ends a long command of the debugger", long_steps, ENDLESS, [(PROMPT, b"continue\n"), (b"moves", CTRL_C)], by_signal),
        tried("one Ctrl-D ends the adapter", [program, "adapter"], b"", [(b"", CTRL_D)]),
    ]
