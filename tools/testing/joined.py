"""The tests of several crates in one crate, so that what lies below them is compiled once, and not once for each.

The crate is made anew in a folder of its own. The root of each crate of tests is a module of it, under the crate's name.
"""

import pathlib
import re
import shutil
import tempfile

from . import tried

NAME = "joined_tests"

# What a path from a crate's root begins with; an attribute names proofs so too, and they are not read.
FROM_ROOT = re.compile(r"\bcrate::(?!(?:proofs|specs)\b)")


def tests(root, listed, chosen):
    """The results of each of these crates, by its name."""
    if len(chosen) < 2:
        return {crate.name: tried.tests(crate) for crate in chosen}
    with tempfile.TemporaryDirectory(prefix="joined-") as folder:
        said, status = tried.said_of_tests(laid(pathlib.Path(folder), root, listed, chosen))
    if not tried.ran(said):
        # Where one does not compile, that is told of it alone.
        return {crate.name: tried.tests(crate) for crate in chosen}
    results = {crate.name: tried.results(crate, said, f"{crate.name}::") for crate in chosen}
    if status and all(it.passed for found in results.values() for it in found):
        results[NAME] = [tried.ended_badly(status, said)]
    return results


def laid(folder, root, listed, chosen):
    """The folder of the joined crate, beside the sources of the others."""
    for crate in listed:
        shutil.copytree(crate.folder / "src", folder / "crates" / crate.name / "src")
    below = dict.fromkeys(name for crate in chosen for name in crate.below)
    lines = (root / "crates.txt").read_text(encoding="utf-8")
    (folder / "crates.txt").write_text(f"{lines}\n{NAME}: {' '.join(below)}\n", encoding="utf-8")
    joined = folder / "crates" / NAME
    (joined / "src").mkdir(parents=True)
    modules = "".join(f"#[cfg(test)]\nmod {crate.name};\n" for crate in chosen)
    (joined / "src/lib.rt").write_text(f"#![tactic(auto)]\n\n{modules}")
    for crate in chosen:
        lay_module(crate, joined / "src")
    return joined


def lay_module(crate, folder):
    """A crate's files as a module: its root beside the folder of the others."""
    for file in (crate.folder / "src").rglob("*.rt"):
        name = file.relative_to(crate.folder / "src")
        text = FROM_ROOT.sub(f"crate::{crate.name}::", file.read_text(encoding="utf-8"))
        if name.as_posix() == "lib.rt":
            to, text = folder / f"{crate.name}.rt", re.sub(r"^#!\[.*\n", "", text, flags=re.M)
        else:
            to = folder / crate.name / name
        to.parent.mkdir(exist_ok=True)
        to.write_text(text, encoding="utf-8")
