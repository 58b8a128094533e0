"""The built program with devices that fail, are closed, or have no end, and with folders and devices among its arguments."""

import contextlib
import os
import pathlib
import subprocess
import tempfile

from . import hostile, program
from .built import result
from .tried import Result, Run

FIRST = {"first.ispc": program.FIRST}
READ_FAULT, WRITE_FAULT = b"read fault\n", b"write fault\n"
NO_SCRIPT = b"script: E2 NoScript\n"
BLANKS = b" \n"


@contextlib.contextmanager
def opened(path, how):
    """A device as a number, which is closed behind."""
    number = os.open(path, how)
    try:
        yield number
    finally:
        os.close(number)


def unread_pipe():
    """The end of a pipe that nobody reads, as a device."""
    reader, writer = os.pipe()
    os.close(reader)
    return writer


def writing(built):
    """Standard output that takes nothing: the first answer ends the run. Standard error that takes nothing: the status says the same."""
    script, results = program.script(program.FIRST, b"step"), []
    with opened("/dev/full", os.O_WRONLY) as full:
        results.append(result(built, Run("a device that is full", script, [], b"", WRITE_FAULT, 4), stdout=full))
        report = Run("a report to a device that is full", script, ["--lane-pure"], b"", WRITE_FAULT, 4)
        results.append(result(built, report, stdout=full))
        results.append(result(built, helped("to a device that is full"), stdout=full))
        refused = Run("a refusal to a device that is full", program.script(program.RATE), [], b"", None, 2)
        wrong = Run("wrong arguments, to a device that is full", script, ["--width", "5"], b"", None, 2)
        results += [result(built, it, stderr=full) for it in (refused, wrong)]
    pipe = unread_pipe()
    results.append(result(built, Run("a pipe that nobody reads", script, [], b"", WRITE_FAULT, 4), stdout=pipe))
    results.append(result(built, helped("to a pipe that nobody reads"), stdout=pipe))
    os.close(pipe)
    return results


def helped(where):
    return Run(f"help {where}", b"", ["--help"], b"", WRITE_FAULT, 4)


def reading(built):
    """Standard input that is a folder, and arguments that are folders or devices without end."""
    run = lambda name, errors, words=(), status=2: Run(name, b"step\n", list(words), b"", errors, status, FIRST)
    with opened("/", os.O_RDONLY) as folder:
        results = [
            result(built, run("standard input that is a folder", READ_FAULT, [], 3), stdin=folder),
            result(built, run("commands from a folder", READ_FAULT, ["first.ispc"], 3), stdin=folder),
        ]
    refused = [
        run("a source that is a folder", b"cannot read /\n", ["/"]),
        run("an input that is a folder", b"cannot read .\n", ["first.ispc", "--input", "."]),
        run("a source that has no name", b"cannot read \n", [""]),
        run("a source without end", b"1:1: S13 Limit\n", ["/dev/zero"]),
        run("an input without end", b"input: I4 TooLarge\n", ["first.ispc", "--input", "/dev/zero"]),
    ]
    return results + [result(built, it) for it in refused]


def closed(built):
    """Streams that are closed when the program begins: what is closed fails where it is used, and nowhere else."""
    answer = b"at 3:5 go depth 1 lanes 1111\n"
    commands = ["first.ispc"]
    ends = (
        (commands, (0,), (3, b"", READ_FAULT)),
        (commands, (1,), (4, b"", WRITE_FAULT)),
        (commands, (2,), (0, answer, b"")),
        (commands, (0, 2), (3, b"", b"")),
        (commands, (1, 2), (4, b"", b"")),
        (["--help"], (1,), (4, b"", WRITE_FAULT)),
    )
    results = []
    with tempfile.TemporaryDirectory(prefix="closed-") as folder:
        pathlib.Path(folder, "first.ispc").write_bytes(program.FIRST)
        for words, streams, wanted in ends:
            close = lambda streams=streams: [os.close(it) for it in streams]
            ran = subprocess.run([built, *words], cwd=folder, env={}, input=b"step\n", capture_output=True, preexec_fn=close)
            came = (ran.returncode, ran.stdout, ran.stderr)
            results.append(Result(f"closed streams {streams}: {words[0]}", came == wanted, [f"{came!r}, and not {wanted!r}"]))
    return results


def endless(built, failing):
    """Tasks: standard input gives one blank, or the end of a line, for ever. It has no line %%, or it ends at the most reads that a run makes."""

    def ends(words, what, wanted, byte):
        def tried(case):
            came = case.ended(ENDLESS_BYTE=byte, SINGLE_BYTES=1)
            return case.result(f"as the {what}", [] if came == wanted else [f"{came!r}"])

        return hostile.task(Run(f"{bytes([byte])!r} for ever", b"", words, data=FIRST), tried, built, failing)

    script, commands = ([], "script", (2, b"", NO_SCRIPT)), (["first.ispc"], "commands", (3, b"", READ_FAULT))
    return [ends(*words, byte) for words in (commands, script) for byte in BLANKS]


def of_any_build(built):
    """What a program that is built with checks is tried with too."""
    return writing(built) + reading(built) + closed(built)
