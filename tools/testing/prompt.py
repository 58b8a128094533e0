"""The built program with a user who waits: each answer is there before the next command is sent, over a pipe and over a terminal; nothing is
read after `quit` beyond what was read at once; and the answers to what was read at once are written at once."""

import os
import pathlib
import socket
import subprocess
import tempfile
import tty

from . import kinds, program
from .terminals import is_ready
from .tried import Result

WAITED = 60  # seconds for an answer, or for the end
AT_ONCE = 512  # bytes that the program reads at once
AT_START = b"at 3:5 go depth 1 lanes 1111\n"


def answers_of(session):
    """The commands of a session up to `quit`, each with its answer."""
    found = []
    for line in session.said.splitlines():
        if line.startswith("> "):
            found.append((line.removeprefix("> ").encode() + b"\n", b""))
        else:
            found[-1] = (found[-1][0], found[-1][1] + line.encode() + b"\n")
    return found


def come(output, size):
    """So many bytes that come, or those that have come by then."""
    found = b""
    while len(found) < size:
        piece = os.read(output, size - len(found)) if is_ready(output, WAITED) else b""
        if not piece:
            break
        found += piece
    return found


def is_silent(output):
    """Whether nothing more has come."""
    return not is_ready(output, 0)


def begun(built, folder, words, **streams):
    return subprocess.Popen([built, *words], cwd=folder, env={}, stdin=subprocess.PIPE, **streams)


def asked(built, name, session, output, theirs):
    """The commands of a session one at a time, each sent when the whole answer before it has come, and nothing else."""
    why = []
    with tempfile.TemporaryDirectory(prefix="asked-") as folder:
        pathlib.Path(folder, session.source_name).write_bytes(session.source)
        with begun(built, folder, [session.source_name, *session.options], stdout=theirs) as process:
            os.close(theirs)
            for command, answer in answers_of(session):
                process.stdin.write(command)
                process.stdin.flush()
                found = come(output, len(answer))
                if found != answer or not is_silent(output) and command != b"quit\n":
                    why += [f"{command!r}: {found!r}, and not {answer!r}"]
                    break
            process.stdin.close()
    os.close(output)
    return Result(f"each of {len(answers_of(session))} answers comes before the next command, {name}", not why, why)


def ended(process):
    """The status of a program that ends while its standard input is open, or None."""
    try:
        return process.wait(WAITED)
    except subprocess.TimeoutExpired:
        process.kill()
        return None


def quits(built):
    """A program that is told to quit ends, though more may come."""
    with tempfile.TemporaryDirectory(prefix="quits-") as folder:
        pathlib.Path(folder, "first.ispc").write_bytes(program.FIRST)
        with begun(built, folder, ["first.ispc"], stdout=subprocess.PIPE) as process:
            process.stdin.write(b"step\nquit\n")
            process.stdin.flush()
            status, output = ended(process), process.stdout.read()
    why = [] if (status, output) == (0, AT_START) else [f"status {status}, {output!r}"]
    return Result("it ends at `quit`, with standard input open", not why, why)


def read_by_then(built):
    """Of a large file of commands no more is read than what `quit` was read with."""
    with tempfile.TemporaryDirectory(prefix="read-") as folder:
        pathlib.Path(folder, "first.ispc").write_bytes(program.FIRST)
        why = []
        for before in (0, AT_ONCE - 5, AT_ONCE, 10 * AT_ONCE):
            commands = b"step\n" + b"\n" * before + b"quit\n"
            with tempfile.TemporaryFile() as file:
                file.write(commands + b"undo\n" * 100_000)
                file.seek(0)
                ran = subprocess.run([built, "first.ispc"], cwd=folder, env={}, stdin=file, capture_output=True)
                read = os.lseek(file.fileno(), 0, os.SEEK_CUR)
            is_right = (ran.returncode, ran.stdout) == (0, AT_START) and len(commands) <= read <= -(-len(commands) // AT_ONCE) * AT_ONCE
            why += [] if is_right else [f"status {ran.returncode}, {ran.stdout[:100]!r}, {read} bytes read for {len(commands)}"]
    return Result("nothing is read after `quit`", not why, why)


def written_together(built):
    """The answers to the lines that end in one read are one write: on a device that keeps writes apart there are as many as reads that had lines."""
    refused, whole = b"C3 NoHistory\n", AT_ONCE // len(b"undo\n")
    ours, theirs = socket.socketpair(socket.AF_UNIX, socket.SOCK_SEQPACKET)
    with tempfile.TemporaryDirectory(prefix="together-") as folder, tempfile.TemporaryFile() as commands, ours, theirs:
        pathlib.Path(folder, "first.ispc").write_bytes(program.FIRST)
        commands.write(b"undo\n" * (whole + 40))
        commands.seek(0)
        ran = subprocess.run([built, "first.ispc"], cwd=folder, env={}, stdin=commands, stdout=theirs)
        theirs.close()
        written = list(iter(lambda: ours.recv(65_536), b""))
    is_right = ran.returncode == 0 and written == [refused * whole, refused * 40]
    why = [] if is_right else [f"status {ran.returncode}, {len(written)} writes of {[len(it) for it in written[:9]]} bytes"]
    return Result("the answers to one read are one write", not why, why)


def results(root, built):
    session = kinds.session(root)
    ours, theirs = os.openpty()
    tty.setraw(theirs)
    found = [asked(built, "over a pipe", session, *os.pipe()), asked(built, "over a terminal", session, ours, theirs)]
    return [*found, quits(built), read_by_then(built), written_together(built)]
