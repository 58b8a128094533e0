"""The program over the other record of old words: each stored run gives what it gives over the first.

The program keeps its history in a `DeltaRing`, the old words of each event. Here it is built once more, over a `SnapshotRing`, which keeps
whole copies of the words: in a copy of the sources in which `run` names that record, and nothing else is another. That `run_over` does the same
over both is proved. What is left to show here is what no clause says: that memory is found, and what `ispc_cli` does around `run`.
"""

import pathlib
import shutil
import tempfile

from . import answers, built, commands, examples, faults, program, refusal_page, sessions, worked_rows
from .meant import is_run
from .tried import Result

NAME = "over snapshots"
FILE = "crates/ispc_debugger/src/running.rt"
# `run` is this instance of `run_over`, whose clauses hold over any record.
INSTANCE = "run_over::<DeltaRing, R, O>("


def other(text):
    """The text of the file in which `run` names its record, with the other one; None where it names none, or several."""
    return text.replace("DeltaRing", "SnapshotRing") if text.count(INSTANCE) == 1 else None


def laid(folder, root, listed):
    """The folder of the program in a copy of the sources, or None where `run` is no such instance."""
    changed = other((root / FILE).read_text(encoding="utf-8"))
    if changed is None:
        return None
    for crate in listed:
        shutil.copytree(crate.folder / "src", folder / "crates" / crate.name / "src")
    shutil.copy(root / "crates.txt", folder)
    (folder / FILE).write_text(changed, encoding="utf-8")
    return folder / "crates" / program.CRATE


def stored(root):
    """The stored runs that say what a source means, but for those that find little memory, of which whole copies need more."""
    runs = [it for module in (examples, sessions, worked_rows, answers, commands, refusal_page) for it in module.runs(root)] + faults.runs()
    return [it for it in runs if is_run(it)]


def results(root, listed):
    crate = next(it for it in listed if it.name == program.CRATE)
    with tempfile.TemporaryDirectory(prefix="records-") as made:
        folder = laid(pathlib.Path(made), root, listed)
        if folder is None:
            return [Result(NAME, False, [f"{FILE} has no {INSTANCE}, or several"])]
        return built.runs(Copy(crate.name, folder), stored(root))


class Copy:
    """A crate in another folder."""

    def __init__(self, name, folder):
        self.name, self.folder = name, folder
