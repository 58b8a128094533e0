"""The page docs/FINDING.md: each name of a row is there, as a definition, a function, a law or a wrong body of the crate that the row says."""

import re

from .tables import rows
from .tool import tool
from .tried import Result

PAGE = "docs/FINDING.md"
COLUMNS = ["Rule", "Definition", "Crate", "Code", "Law", "Wrong body"]
MEANING = ("gang_types", "gang_model")
NAME = re.compile(r"`([^`]+)`(?: of `(\w+)`)?")


class Names:
    """What the crates have: definitions and laws by crate, and functions by crate."""

    def __init__(self, root):
        self.root, where = root, tool(root, "where")
        folders = {"specs": "specs/**/*.antt", "proofs": "proofs/**/*.antt"}
        self.units = {(crate, part): set() for crate in self.crates() for part in folders}
        for (crate, part), found in self.units.items():
            for file in (root / "crates" / crate).glob(folders[part]):
                found.update(unit.name for how in (where.DEFINED, where.STATED) for unit in where.units(file, how))
        self.functions = {crate: set(self.functions_of(crate)) for crate in self.crates()}

    def crates(self):
        return [it.name for it in (self.root / "crates").iterdir() if it.is_dir()]

    def functions_of(self, crate):
        for file in (self.root / "crates" / crate / "src").rglob("*.rt"):
            yield from re.findall(r"\bfn (\w+)", file.read_text(encoding="utf-8"))

    def has(self, column, name, crates):
        """Whether one of these crates has what a cell of this column names."""
        if column == "Wrong body":
            return any((self.root / "crates" / it / "must-fail" / f"{name}.edit").is_file() for it in crates)
        if column == "Code":
            return any(name in self.functions.get(it, ()) for it in crates)
        part = "specs" if column == "Definition" else "proofs"
        return any(name in self.units.get((it, part), ()) for it in crates)


def missing(row, names):
    """The names of a row that are not there."""
    own = NAME.findall(row["Crate"])
    for column in ("Definition", "Code", "Law", "Wrong body"):
        found = NAME.findall(row[column])
        if not found and row[column] != "its clause":
            yield f"{row['Rule']}: {column} names nothing"
        for name, other in found:
            crates = [other] if other else MEANING if column == "Definition" else [it for it, _ in own]
            if not names.has(column, name, crates):
                yield f"{row['Rule']}: {column} {name} is not in {' or '.join(crates)}"


def check(root):
    """One result: all names of the page are there."""
    if not (root / PAGE).is_file():
        return [Result(f"{PAGE}: its names", False, ["it is not there"])]
    names, found = Names(root), list(rows(root / PAGE, COLUMNS))
    why = [f"line {number}: {it}" for number, row in found for it in missing(row, names)]
    return [Result(f"{PAGE}: its names", found and not why, why or ["it has no table of rules"])]
