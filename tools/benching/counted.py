"""How many instructions a work takes, counted by valgrind: the same on a busy machine as on an idle one."""

import re
import shutil

from .timed import NotRun, ended

VALGRIND = ["valgrind", "--tool=callgrind", "--callgrind-out-file=/dev/null"]
COUNTED = re.compile(rb"Collected : (\d+)")


def is_there():
    return shutil.which("valgrind") is not None


def instructions(program, work, times):
    """The instructions of one run of a work, in which the measured commands are done so often."""
    run = ended(VALGRIND, program, work, times)
    found = COUNTED.search(run.stderr)
    if run.returncode or not found:
        raise NotRun(f"status {run.returncode}, and no count of instructions")
    return int(found[1])


def each(program, work):
    """The instructions of each thing that a work does."""
    return (instructions(program, work, 1) - instructions(program, work, 0)) / work.count
