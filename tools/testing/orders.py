"""In which order the debugger and the adapter read and answer: what is asked is answered before more is read, however it comes in pieces.

Lines and requests are sent over a pipe and over a terminal, one at a time, two at once, and in pieces of 1, 511, 512 and 513 bytes: behind each piece
all has come that answers what is whole by then, and nothing else. A pipe of packets loses what a read has no room for: each read has room for 512
bytes or more. Of what follows `quit` and `disconnect` no more is read than what came with them at once.
"""

import array
import contextlib
import fcntl
import functools
import json
import os
import pathlib
import subprocess
import tempfile
import termios
import tty

from meaning.prompt import Prompt

from .front_ends import NAME, REQUESTS, framed
from .prompt import come, ended, is_silent
from .tried import Result

FILE = "go.ispc"
SOURCE = """uniform int8 sum = 3;
export void go() {
    int x = programIndex * 3;
    while (sum < 99) {
        if (x > 3)
            x = -x;
        sum += 1;
    }
}
"""
ASKED = "(rinddecade) "
SIZES, PACKET = (1, 511, 512, 513), 512
# How much a read has room for at most.
OF_LINES, OF_REQUESTS = 512, 4096
LOOKS = ("step", "print x", "info locals", "step 2", "backtrace", "print x * 2 - 1", "reverse-step", "print sum", "next 2", "undo")


def echoed(*sizes):
    """Lines of so many bytes, with their ends, that say what they have."""
    return [f"echo {'y' * (size - 6)}" for size in sizes]


# Lines end at byte 511, at byte 1024 and at byte 1537, which is behind three pieces of 512, and others lie over the ends of pieces.
LINES = [*echoed(255, 256, 171, 171, 171, 256, 257), *LOOKS, *(it for pair in zip(echoed(*range(60, 256, 20)), LOOKS) for it in pair)]


def answers(lines, is_asked):
    """What is shown at first and behind each line: with the words that a terminal shows before each."""
    prompt, end = Prompt(SOURCE, FILE), ASKED if is_asked else ""
    said = lambda shown: ("".join(f"{it}\n" for it in shown) + end).encode()
    return [said(prompt.here()), *(said(prompt.shown_for(line)) for line in lines)]


def in_pieces(text, size):
    return [text[at : at + size] for at in range(0, len(text), size)]


def as_bytes(lines):
    return [f"{line}\n".encode() for line in lines]


@contextlib.contextmanager
def begun(words, files, theirs, output):
    """A program in a folder with files, at the ends of devices that are its own from then on."""
    with tempfile.TemporaryDirectory(prefix="orders-") as folder:
        for name, text in files.items():
            pathlib.Path(folder, name).write_bytes(text)
        with subprocess.Popen(words, cwd=folder, env={}, stdin=theirs, stdout=output) as process:
            for it in {theirs, output}:
                os.close(it)
            try:
                yield process
            finally:
                process.kill()


def pipes(flags=0):
    """Devices of a program and of whoever asks it: the ends to write on and to read from."""
    (theirs, ours), (come_from, output) = os.pipe2(flags), os.pipe()
    return ours, come_from, theirs, output


def terminal():
    """The same of a terminal, which hands over at once what comes."""
    ours, theirs = os.openpty()
    tty.setraw(theirs)
    return ours, ours, theirs, theirs


def debugged(built, name, pieces, lines, devices, is_asked):
    """Pieces of lines, each sent when all has come that answers the lines that were whole before."""
    ours, source, *theirs = devices
    wanted, why, sent = answers(lines, is_asked), [], b""
    with begun([built, "debug", FILE], {FILE: SOURCE.encode()}, *theirs):
        told = 0
        for piece in [b"", *pieces]:
            os.write(ours, piece)
            sent += piece
            now = b"".join(wanted[told : 1 + sent.count(b"\n")])
            told = 1 + sent.count(b"\n")
            found = come(source, len(now))
            if found != now or not is_silent(source):
                why = [f"behind {len(sent)} bytes, {piece[-60:]!r}: {found[-200:]!r}, and not {now[-200:]!r}"]
                break
    for it in {ours, source}:
        os.close(it)
    return Result(f"the debugger answers before it reads on: {name}", not why, why)


def of_debugger(built):
    """A task for each way in which lines come to the debugger."""
    lines = as_bytes(LINES)
    text, two = b"".join(lines), [b"".join(pair) for pair in zip(lines[::2], lines[1::2])]
    ways = [("one line at a time", lines), ("two lines at a time", two), ("all at once", [text])]
    ways += [(f"pieces of {size} bytes", in_pieces(text, size)) for size in SIZES]
    on_pipe = lambda name, pieces: debugged(built, f"{name}, over a pipe", pieces, LINES, pipes(), False)
    on_terminal = lambda name, pieces: debugged(built, f"{name}, over a terminal", pieces, LINES, terminal(), True)
    in_packets = lambda: debugged(built, f"packets of {PACKET} bytes", in_pieces(text, PACKET), LINES, pipes(os.O_DIRECT), False)
    found = [*(functools.partial(on_pipe, *way) for way in ways), in_packets]
    return found + [functools.partial(on_terminal, *way) for way in ways if way[1] != [text]]


def unread(device):
    """How many bytes have come to a device that nobody has read."""
    count = array.array("i", [0])
    fcntl.ioctl(device, termios.FIONREAD, count)
    return count[0]


def left_unread(built, name, words, files, at_once, first, more):
    """What ends a program while its input is open, and what follows it, of which at most one read's room is taken."""
    ours, source, theirs, output = pipes()
    kept = os.dup(theirs)
    with begun([built, *words], files, theirs, output) as process:
        os.write(ours, first + more)
        status, left = ended(process), unread(kept)
    for it in (ours, source, kept):
        os.close(it)
    why = [] if status == 0 and left >= len(more) - at_once else [f"status {status}, and {left} of {len(more)} bytes are left"]
    return Result(f"nothing is read {name}", not why, why)


def message(source):
    """The next message of the adapter, or None where none comes."""
    head = b""
    while not head.endswith(b"\r\n\r\n"):
        byte = come(source, 1)
        if not byte:
            return None
        head += byte
    return json.loads(come(source, int(head[16:-4])))


def answered(source, number):
    """Whether the response to the request of a number comes, and none of another one."""
    while (told := message(source)) is not None:
        if told["type"] == "response":
            return told["request_seq"] == number
    return False


def adapted(built, root, name, size, flags=0):
    """Requests in pieces, each sent when all requests that were whole before are answered; a size of none is a request at a time."""
    frames = [framed(REQUESTS)[: len(framed(REQUESTS[:count]))] for count in range(1, len(REQUESTS) + 1)]
    whole = frames[-1]
    pieces = in_pieces(whole, size) if size else [one[len(before) :] for before, one in zip([b"", *frames], frames)]
    ours, source, *theirs = pipes(flags)
    files = {NAME: (root / "examples" / NAME).read_bytes()}
    why, sent, told = [], 0, 0
    with begun([built, "adapter"], files, *theirs) as process:
        for piece in pieces:
            os.write(ours, piece)
            sent += len(piece)
            for number in range(told + 1, 1 + sum(len(it) <= sent for it in frames)):
                why += [] if answered(source, number) else [f"behind {sent} bytes request {number} is not answered"]
                told = number
            if why:
                break
        why += [] if why or ended(process) == 0 else ["it does not end"]
    for it in {ours, source}:
        os.close(it)
    return Result(f"the adapter answers before it reads on: {name}", not why, why)


def of_adapter(built, root):
    """A task for each way in which requests come to the adapter."""
    whole = len(framed(REQUESTS))
    ways = [("one request at a time", None), *((f"pieces of {size} bytes", size) for size in (*SIZES, whole))]
    ways += [(f"packets of {PACKET} bytes", PACKET, os.O_DIRECT)]
    return [functools.partial(adapted, built, root, *way) for way in ways]


def of_ends(built):
    """Tasks: what follows `quit` and `disconnect` is left."""
    quits, disconnects = b"step\nquit\n", framed([REQUESTS[0], REQUESTS[-1]])
    debug = ["debug", FILE], {FILE: SOURCE.encode()}, OF_LINES
    return [
        functools.partial(left_unread, built, "behind quit", *debug, quits, b"step\n" * 4000),
        functools.partial(left_unread, built, "behind quit where nothing follows", *debug, quits, b""),
        functools.partial(left_unread, built, "behind disconnect", ["adapter"], {}, OF_REQUESTS, disconnects, framed(REQUESTS[:1]) * 200),
    ]


def tasks(root, built):
    return [*of_debugger(built), *of_adapter(built, root), *of_ends(built)]


def results(root, built):
    """A result for each way in which lines and requests come, and for what is left of them."""
    return [task() for task in tasks(root, built)]
