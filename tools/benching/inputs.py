"""The time of reading an input: that of a run with it less that of a run with next to none, each the least of some rounds."""

import pathlib
import subprocess
import tempfile

from .timed import NotRun, spent

ROUNDS = 5
MEGABYTE = 1 << 20
VALUE = "127 "
SOURCE = "export void go(uniform int8 a[]) { }\n"


def text_of(megabytes):
    """An input of so many megabytes, all of them values of one array."""
    values = megabytes * MEGABYTE // len(VALUE) - 1
    return ("a = " + VALUE * values)[:-1] + "\n"


def once(program, folder, text):
    """The processor's seconds of one run with an input."""
    pathlib.Path(folder, "it.ispc").write_text(SOURCE)
    pathlib.Path(folder, "it.input").write_text(text)
    before = spent()
    ended = subprocess.run([program, "it.ispc", "--input", "it.input", "--history", "1"], cwd=folder, input=b"step\n", capture_output=True, env={})
    if ended.returncode:
        raise NotRun(f"status {ended.returncode} {ended.stderr.decode(errors='replace').strip()}")
    return spent() - before


def seconds_a_megabyte(program, sizes):
    """The seconds of each megabyte, of inputs of so many megabytes. The rounds of the sizes alternate."""
    texts = [text_of(it) for it in sizes]
    with tempfile.TemporaryDirectory(prefix="bench-inputs-") as folder:
        rounds = [[once(program, folder, it) for it in (VALUE.join(("a = ", "\n")), *texts)] for _ in range(ROUNDS)]
    none, *each = (min(it) for it in zip(*rounds))
    return [(it - none) / size for it, size in zip(each, sizes)]
