"""What an older toolchain's gate lacks of what the judges call, so that a landing means the same with either.

`rattle-kit-13b` has no sum of a crate with its toolchain, no copy of kept work and no words for the prover's limits; and its reading of a
repository sets aside what earlier checks kept, which a landing goes on from.
"""

import functools
import hashlib
import inspect
import os
import re
import shutil
import tempfile

LIMITS = re.compile(r"\b(?:ran out of|out of memory|gave up|time limit|step limit|limit of|too many|too deep|too large)\b")


def completed(rt, rtlib):
    """Gives the gate's module what it lacks."""
    if "aside" in inspect.signature(rt.crates_of).parameters:
        rt.crates_of = functools.partial(crates_of, rt, rtlib, rt.crates_of)
    if not hasattr(rt, "kit_sum"):
        rt.kit_sum = KitSum(rt.KIT)
    if not hasattr(rt, "stamp_of"):
        rt.stamp_of = functools.partial(stamp_of, rt, rtlib)
    if not hasattr(rt, "linked"):
        rt.linked = lambda folder, to: shutil.copytree(folder, to)
    if not hasattr(rt, "LIMITS"):
        rt.LIMITS = LIMITS


def crates_of(rt, rtlib, read, root):
    """Returns the repository's crates, lowest first. The gate reads its files on a second name of each, since it removes what it finds in out/."""
    built = lambda folder, names: {it for it in names if folder == root and it == ".git" or os.path.dirname(folder) == f"{root}/crates" and it == "out"}
    with tempfile.TemporaryDirectory(prefix="read-") as room:
        os.mkdir(f"{room}/aside")
        shutil.copytree(root, f"{room}/all", symlinks=True, copy_function=named_twice, ignore=built)
        names = [it.name for it in read(f"{room}/all", f"{room}/aside")]
    rtlib.Crate = rt.Crate
    found = {it.name: it for it in rtlib.crates_below(root)}
    return [found[it] for it in names]


def named_twice(file, to):
    """Gives a file a second name, or copies it where it can have none."""
    try:
        os.link(file, to, follow_symlinks=False)
    except OSError:
        shutil.copy2(file, to, follow_symlinks=False)


class KitSum:
    """A digest of the toolchain: its files with their sizes and times.

    There are so many that all are looked at once in a run, and again only where one of its programs has changed.
    """

    def __init__(self, kit):
        self.kit, self.whole, self.programs, self.is_fresh = kit, None, None, False

    def __call__(self):
        if not self.is_fresh:
            before, self.programs, self.is_fresh = self.programs, sum_of_files(f"{self.kit}/bin"), True
            if self.programs != before:
                self.whole = sum_of_files(self.kit)
        return self.whole

    def cache_clear(self):
        self.is_fresh = False


def sum_of_files(top):
    """Returns a digest of the names, sizes and times of all files below a folder."""
    made = hashlib.sha256()
    for at, folders, names in os.walk(top):
        folders.sort()
        for name in sorted(names):
            about = os.lstat(f"{at}/{name}")
            made.update(repr((os.path.relpath(f"{at}/{name}", top), about.st_size, about.st_mtime_ns)).encode())
    return made.hexdigest()


def stamp_of(rt, rtlib, crate, seen):
    """Returns a digest of all that a crate's proof rests on, and notes it and those of the crates below it."""
    if crate.name not in seen:
        below = [stamp_of(rt, rtlib, it, seen) for it in crate.deps]
        said = (crate.name, crate.said, crate.is_program, crate.of_kit, rt.Crate.allowed, rt.kit_sum(), below)
        made = hashlib.sha256(repr(said).encode())
        for part in (*rtlib.PARTS, "c"):
            for at, folders, names in os.walk(f"{crate.folder}/{part}"):
                folders.sort()
                for name in sorted(names):
                    with open(f"{at}/{name}", "rb") as it:
                        made.update(repr((os.path.relpath(f"{at}/{name}", crate.folder), it.read())).encode())
        seen[crate.name] = made.hexdigest()
    return seen[crate.name]
