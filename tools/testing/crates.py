"""The crates of crates.txt."""

import re

from .tried import Result

# (blank ones are not counted)
LINES_OF_README = range(5, 26)


class Crate:
    """A crate: its folder, the crates and libraries that it names, and how many tests stand in its files."""

    def __init__(self, root, name, below, heading):
        self.name, self.below, self.heading = name, below, heading
        self.folder = root / "crates" / name
        files = list((self.folder / "src").rglob("*.rt"))
        texts = [it.read_text(encoding="utf-8") for it in files]
        self.size = sum(map(len, texts))
        self.tests = sum(len(re.findall(r"^\s*#\[test\]", text, re.M)) for text in texts)
        self.is_program = (self.folder / "src/main.rt").is_file()


def listed(root):
    """The crates in the order of crates.txt."""
    found, heading = [], None
    for line in (root / "crates.txt").read_text(encoding="utf-8").splitlines():
        if line.startswith("#"):
            heading = line
        elif line.strip():
            names, below = line.split("#")[0].split(":")
            found.append(Crate(root, names.split()[0], below.split(), heading))
    return found


def weight(crate, listed):
    """About how much is compiled for a crate: what stands in it and in the crates below it."""
    by_name = {it.name: it for it in listed}
    seen, left = set(), [crate.name]
    while left:
        name = left.pop()
        if name in by_name and name not in seen:
            seen.add(name)
            left += by_name[name].below
    return sum(by_name[name].size for name in seen)


def unnamed(crate, told):
    """The files of lemmas that a crate's README does not name; `Name..` there names all that begin so. The rows of tests are not named."""
    files = [] if crate.name.startswith("tests_") else sorted((crate.folder / "proofs").glob("*.antt"))
    fronts = tuple(re.findall(r"`(\w+)\.\.`", told))
    return [it.stem for it in files if it.stem != "Lib" and not re.search(rf"\b{it.stem}\b", told) and not it.stem.startswith(fronts or (" ",))]


def faults(crate):
    """What is wrong with a line of crates.txt, or with the crate's README."""
    why = [] if crate.heading else ["no heading stands above its line"]
    if not (crate.folder / "src").is_dir():
        return why + ["it has no folder crates/NAME/src"]
    readme = crate.folder / "README.md"
    if not readme.is_file():
        return why + ["it has no README.md"]
    told = readme.read_text(encoding="utf-8")
    lines = sum(1 for it in told.splitlines() if it.strip())
    if lines not in LINES_OF_README:
        why.append(f"its README.md has {lines} lines, and not {LINES_OF_README[0]} to {LINES_OF_README[-1]}")
    return why + [f"its README.md does not name proofs/{it}" for it in unnamed(crate, told)]


def check(root, listed):
    """A result for each crate that is listed or has a folder."""
    results = []
    for number, crate in enumerate(listed):
        why = faults(crate)
        if crate.name in {it.name for it in listed[:number]}:
            why.append("it is listed twice")
        results.append(Result(crate.name, not why, why))
    names = {crate.name for crate in listed}
    for folder in sorted(it for it in (root / "crates").iterdir() if it.is_dir()):
        if folder.name not in names:
            results.append(Result(folder.name, False, ["its folder is there, and crates.txt has no line for it"]))
    return results
