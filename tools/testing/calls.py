"""Commands that run, which are ended where the tests are stopped; and calls side by side."""

import concurrent.futures
import contextlib
import os
import signal
import subprocess
import threading

from .processors import processors

RUNNING = set()
LOCK = threading.Lock()
STOPPED = threading.Event()
POOL = concurrent.futures.ThreadPoolExecutor(processors())


def side_by_side(call, items):
    """What a call gives for each item, in their order: as many at a time as there are processors, whoever asks."""
    return list(POOL.map(call, items))


def go_on():
    """Faults where the tests are stopped."""
    if STOPPED.is_set():
        raise InterruptedError("stopped")


@contextlib.contextmanager
def begun(words, folder, temporary=None, **streams):
    """A command that runs in a folder, and which stop_all ends."""
    go_on()
    more = {} if temporary is None else {"TMPDIR": str(temporary)}
    with subprocess.Popen(words, cwd=folder, stdin=subprocess.DEVNULL, env={**os.environ, **more}, **streams) as process, ended_early(process):
        yield process


@contextlib.contextmanager
def ended_early(process):
    """A process that stop_all ends."""
    with LOCK:
        RUNNING.add(process)
    try:
        yield
    finally:
        with LOCK:
            RUNNING.discard(process)


def called(words, folder):
    """Standard output, standard error and the status of a command in a folder."""
    with begun(words, folder, stdout=subprocess.PIPE, stderr=subprocess.PIPE) as process:
        output, errors = process.communicate()
    return output, errors, process.returncode


def stop_all():
    """Ends what runs, and lets nothing more begin."""
    STOPPED.set()
    POOL.shutdown(wait=False, cancel_futures=True)
    with LOCK:
        for process in RUNNING:
            process.send_signal(signal.SIGTERM)


def all_of(terminal):
    """What a terminal shows until nothing writes to it any more."""
    text = b""
    try:
        while piece := os.read(terminal, 65536):
            text += piece
    except OSError:
        pass  # Linux tells the end of a terminal so.
    return text
