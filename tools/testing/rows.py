"""The files of rows that tools/ writes, proofs and tables of tests: they are what is committed, in rt fmt's layout."""

import pathlib
import shutil
import tempfile

from .calls import called
from .tried import Result, shown

WRITERS = {
    "tests_transcripts": ("transcripts", "write_rows.py", "proofs"),
    "tests_masks": ("transcripts", "write_masked_rows.py", "proofs"),
    "tests_refusals": ("refusals", "rows.py", "proofs"),
    "tests_rows": ("transcripts", "write_tests.py", "src/table"),
}

BY_HAND = {
    "tests_transcripts": {"Forms.antt", "HistoryChange.antt", "LanePurity.antt"},
    "tests_masks": {"MaskedRuns.antt", "Recursion.antt"},
    "tests_refusals": {"Wanted.antt", "LimitRows.antt"},
    "tests_rows": set(),
}


def check(root):
    """A result for each file of the crates of rows that is written."""
    results = []
    with tempfile.TemporaryDirectory(prefix="rows-") as folder:
        copy = pathlib.Path(folder)
        shutil.copy(root / "crates.txt", copy)
        shutil.copytree(root / "tools", copy / "tools", ignore=shutil.ignore_patterns("__pycache__"))
        for crate, (tool, script, place) in WRITERS.items():
            committed, written = (it / "crates" / crate / place for it in (root, copy))
            shutil.copytree(root / "crates" / crate / "src", copy / "crates" / crate / "src")
            shutil.rmtree(written, ignore_errors=True)
            written.mkdir()
            for name in BY_HAND[crate]:
                shutil.copy(committed / name, written)
            for words, folder_of in ((["python3", script], copy / "tools" / tool), (["rt", "fmt"], copy / "crates" / crate)):
                output, errors, status = called(words, folder_of)
                if status:
                    results.append(Result(f"{crate}: {' '.join(words)}", False, shown(output + errors)))
            results += compared(f"{crate}/{place}", committed, written)
    return results


def compared(folder, committed, written):
    names = sorted({it.name for it in committed.iterdir()} | {it.name for it in written.iterdir()})
    results = []
    for name in names:
        old, new = (it / name for it in (committed, written))
        same = old.is_file() and new.is_file() and old.read_bytes() == new.read_bytes()
        results.append(Result(f"{folder}/{name}", same, ["what tools/ writes differs from what is committed"]))
    return results
