"""The same works under gdb's `record full`: the processor's seconds of one thing that a work does, gdb's own and those of the program under it."""

import pathlib
import shutil
import subprocess
import tempfile

from . import works
from .timed import NotRun

SOME = 400  # statements, turns or commands; gdb takes long
WHILE_LINE = 5
SECONDS = 900


def is_there():
    return shutil.which("gdb") is not None and shutil.which("gcc") is not None


class GdbWork:
    """A C program, the commands of gdb before the measured ones, these, how many things they do, and the line where the program stands then."""

    def __init__(self, text, first, measured, count, line, rounds=1):
        self.text, self.first, self.measured, self.count, self.line, self.rounds = text, first, measured, count, line, rounds


def straight():
    return GdbWork(works.c_straight(SOME), [], [f"step {SOME}"], SOME, SOME + 3, 3)


def loop():
    steps = works.steps_of_loop(SOME)
    return GdbWork(works.c_loop(SOME), [], [f"step {steps - 2}"], steps - 2, WHILE_LINE, 3)


def single_steps():
    """Of the turns of a loop the first statements, after those that declare."""
    return GdbWork(works.c_loop(SOME), [], ["step"] * SOME, SOME, WHILE_LINE + (SOME - 2) % 5, 3)


def finishes():
    return GdbWork(works.c_recursion(), ["break 3", "continue"], ["finish"] * (works.DEPTH - 3), works.DEPTH - 3, 5, 3)


def late_watch():
    steps = works.steps_of_loop(SOME)
    return GdbWork(works.c_loop(SOME), ["watch t"], ["continue"], steps, works.LATE_LINE + 1)


def back(stops=()):
    first = [f"break {works.LATE_LINE}", "continue", *stops]
    return GdbWork(works.c_loop(works.LATE_TURNS), first, ["reverse-continue"], works.STEPS_TO_LATE_LINE, works.FIRST_LINE)


SCRIPT = """
import os
import time

def spent():
    with open("/proc/%d/stat" % gdb.selected_inferior().pid) as file:
        fields = file.read().rsplit(")", 1)[1].split()
    return time.process_time() + (int(fields[11]) + int(fields[12])) / os.sysconf("SC_CLK_TCK")

gdb.execute("set confirm off")
gdb.execute("set pagination off")
gdb.execute("set record full insn-number-max 0")
gdb.execute("break main")
gdb.execute("run")
gdb.execute("record full")
for line in FIRST:
    gdb.execute(line, to_string=True)
before = spent()
for line in MEASURED:
    gdb.execute(line, to_string=True)
print("taken", spent() - before)
print("stands", gdb.selected_frame().find_sal().line)
gdb.execute("kill")
"""


def seconds_each(work):
    """The seconds of each thing, the least of the work's rounds, or None where gdb takes too long."""
    with tempfile.TemporaryDirectory(prefix="bench-gdb-") as folder:
        source, program, script = (pathlib.Path(folder, name) for name in ("work.c", "work", "work.py"))
        source.write_text(work.text)
        script.write_text(SCRIPT.replace("FIRST", repr(work.first)).replace("MEASURED", repr(work.measured)))
        subprocess.run(["gcc", "-O0", "-g", "-fcf-protection=none", "-no-pie", "-static", "-o", program, source], check=True)
        taken = [it for it in (once(program, script, work.line) for _ in range(work.rounds)) if it is not None]
    return min(taken) / work.count if taken else None


def once(program, script, line):
    """The seconds of one run, or None where it takes too long. It is to come to the line."""
    try:
        ended = subprocess.run(["gdb", "-q", "-batch", "-nx", "-x", script, program], capture_output=True, text=True, timeout=SECONDS)
    except subprocess.TimeoutExpired:
        return None
    told = dict(it.split() for it in ended.stdout.splitlines() if it.startswith(("taken ", "stands ")))
    if told.get("stands") != str(line):
        raise NotRun(f"gdb stands at line {told.get('stands')}, not at {line}")
    return float(told["taken"])
