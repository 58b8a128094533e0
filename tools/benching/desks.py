"""A program that runs and is given its lines one after another. The processor's seconds that it takes for some of them are read off the system
before and behind them, so nothing is among them of what came before, and short times can be told."""

import contextlib
import os
import pathlib
import subprocess
import tempfile
import time

from .timed import NotRun

# What is typed behind the measured lines, and how it is answered: by the prompt, and by the program for scripts.
MARK, MARK_OF_SCRIPTS = ("echo ----", b"----\n"), ("----", b"C1 BadCommand\n")
ROUNDS = 3
TIMES = 5  # that one run goes back
TELLING = 10  # times as long as a line that does nothing, which a line has to take
NAME = "it.ispc"


class Desk:
    """A program that runs, and is given lines."""

    def __init__(self, words, folder, mark=MARK, environment=None):
        self.mark, self.folder = mark, folder
        streams = {"stdin": subprocess.PIPE, "stdout": subprocess.PIPE, "stderr": subprocess.DEVNULL}
        self.process = subprocess.Popen([str(it) for it in words], cwd=folder, env=environment or {}, **streams)
        self.done([])

    def done(self, lines, wanted=b""):
        """What is answered to these lines, which has a text."""
        self.process.stdin.write("".join(f"{it}\n" for it in (*lines, self.mark[0])).encode())
        self.process.stdin.flush()
        told = []
        while not told or told[-1] != self.mark[1]:
            told.append(self.process.stdout.readline())
            if not told[-1]:
                raise NotRun(f"it ends with status {self.process.wait()}")
        if wanted not in b"".join(told):
            raise NotRun(f"it does not come to {wanted.decode()}")
        return b"".join(told)

    def fields(self):
        """What the system tells of it, from its state on."""
        return pathlib.Path(f"/proc/{self.process.pid}/stat").read_text().rsplit(")", 1)[1].split()

    def used(self):
        """The seconds of the processor that it has taken up to now. The system knows them all once it waits for a line."""
        while self.fields()[0] == "R":
            time.sleep(0.0001)
        return int(pathlib.Path(f"/proc/{self.process.pid}/schedstat").read_text().split()[0]) / 1e9

    def used_by_itself(self):
        """Those of them that were not the system's."""
        return int(self.fields()[11]) / os.sysconf("SC_CLK_TCK")

    def seconds(self, lines, wanted=b""):
        """The seconds for these lines."""
        before = self.used()
        self.done(lines, wanted)
        return self.used() - before

    def end(self):
        self.process.stdin.close()
        self.process.stdout.read()
        self.process.wait()


@contextlib.contextmanager
def begun(words, folder, **how):
    """A program that runs as long as it is needed."""
    desk = Desk(words, folder, **how)
    try:
        yield desk
    finally:
        desk.end()


def least(rounds):
    """The least of each of several times, of some rounds."""
    return [min(it) for it in zip(*rounds)]


def scripted(program, folder, text, history, width):
    """The program for scripts with a source."""
    pathlib.Path(folder, NAME).write_text(text)
    return begun([program, NAME, "--history", history, "--width", width], folder, mark=MARK_OF_SCRIPTS)


def apart(taken, nothing):
    """The seconds that a line takes over those of one that does nothing; None where that is too little to tell."""
    return taken - nothing if taken - nothing >= TELLING * nothing else None


def ways_back(program, folder, way):
    """The least seconds of a way back in one run, and of a line that does nothing."""
    with scripted(program, folder, way.text, way.history, way.width) as desk:
        times = []
        for _ in range(TIMES):
            desk.done(way.there, way.from_where)
            times.append((desk.seconds(way.measured, way.to_where), desk.seconds([])))
    return least(times)


def rate_back(program, way):
    """How many steps are taken back in a second; None where that is too short to tell."""
    with tempfile.TemporaryDirectory(prefix="bench-back-") as folder:
        seconds = apart(*least(ways_back(program, folder, way) for _ in range(ROUNDS)))
    return way.count / seconds if seconds else None
