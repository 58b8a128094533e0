"""The toolchain's own gate as a module, what it sums of a crate, and what it wants of a repository's files."""

import collections
import contextlib
import importlib.machinery
import importlib.util
import os
import shutil
import subprocess
import sys
import threading

import older


class Timed(subprocess.Popen):
    """A process whose processor seconds are added up under the crate that its words name. (Python tells of all children in one sum.)"""

    spent = collections.Counter()

    def _try_wait(self, wait_flags):
        try:
            ended, status, used = os.wait4(self.pid, wait_flags)
        except ChildProcessError:
            return self.pid, 0
        words = self.args if isinstance(self.args, list) else []
        if ended == self.pid and "--crate-name" in words:
            Timed.spent[words[words.index("--crate-name") + 1]] += used.ru_utime + used.ru_stime
        return ended, status


subprocess.Popen = Timed


def load():
    """Returns the modules `rt` and `rtlib` of the toolchain whose `rt` is on the path."""
    found = shutil.which("rt")
    if not found:
        sys.exit("the toolchain's rt is not on the path")
    file = os.path.realpath(found)
    loader = importlib.machinery.SourceFileLoader("rt", file)
    made = importlib.util.module_from_spec(importlib.util.spec_from_loader("rt", loader))
    made.__file__, sys.modules["rt"] = file, made
    loader.exec_module(made)
    older.completed(made, made.rtlib)
    return made, made.rtlib


rt, rtlib = load()
rtlib.stop = rt.stop
rtlib.Crate = rt.Crate
sum_of_crate, sums = rtlib.Crate.stamp, {}


def remembered_stamp(crate):
    """The toolchain's sum of what a library is made from, taken once: it walks every path of the graph of crates.

    It names the libraries that were built in a clone. What counts as passed is named by `digests_of`, which is taken anew each time.
    """
    if crate.folder not in sums:
        sums[crate.folder] = sum_of_crate(crate)
    return sums[crate.folder]


rt.Crate.stamp = remembered_stamp


def remembered_below(crate):
    """The libraries below a crate, each after those that it uses, found once for each crate: the toolchain walks every path of the graph."""
    if not hasattr(crate, "lower"):
        crate.lower = [*{it.name: it for dep in crate.deps for it in (*dep.below(), dep)}.values()]
    return [*crate.lower]


rt.Crate.below = remembered_below


def digests_of(crates):
    """Returns each crate's digest, as the toolchain's own gate sums what a verdict rests on.

    It is of the crate's files and its whole line of crates.txt, HANDLES, the kit with the sizes and times of its files, and the digests
    of the crates that it stands on.
    """
    rt.kit_sum.cache_clear()
    seen = {}
    return {it.name: rt.stamp_of(it, seen) for it in crates}


# A command that can write to no file. (To a pipe it can: that is where a check says what it finds.)
WRITES_NO_FILE = ["sh", "-c", 'trap "" XFSZ; ulimit -f 0; exec "$@"', "sh"]
guarded, check_of_edit, here = rtlib.guarded, rt.checked, threading.local()
rtlib.guarded = lambda: [*guarded(), *(WRITES_NO_FILE if getattr(here, "writes_no_file", False) else [])]


def checked(crate, texts, flags, kept):
    """The toolchain's check of a crate with other texts, which saves nothing where it has kept work to read.

    Where a check saves its work and leaves goals open, it then loads all of that work anew, to write out how one would begin their proofs:
    often longer than it took to judge them. Of an edit nobody wants that, and its work is of use to no other.
    """
    here.writes_no_file = bool(kept and os.listdir(kept))
    try:
        return check_of_edit(crate, texts, flags, kept)
    finally:
        here.writes_no_file = False


rt.checked = checked


@contextlib.contextmanager
def held(crate):
    """Waits until no other run of the toolchain works in a crate's folder, and keeps others out meanwhile."""
    files = rtlib.lock([crate])
    try:
        yield
    finally:
        for it in files:
            os.close(it)


def crates_at(root):
    """Returns the repository's crates, lowest first, where its files are as the toolchain's gate wants them."""
    for it in (rtlib.ALLOW_C, rtlib.BACKEND, "RT_SECONDS"):
        os.environ.pop(it, None)
    rtlib.guarded()
    rt.Crate.allowed = rt.handles_of(root)
    crates = rt.crates_of(root)
    for name in sorted(os.listdir(root)):
        if name != ".git" and os.path.isdir(f"{root}/{name}"):
            rtlib.stop_on_unread(f"{root}/{name}", crates)
        elif name.endswith((".rt", ".antt")):
            rtlib.stop(f"no check reads {name}")
    return crates
