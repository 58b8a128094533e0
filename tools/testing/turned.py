"""A program of which some texts are turned: it is built in a copy of the sources in which nothing else is another."""

import pathlib
import re
import shutil

from .calls import called
from .tried import Result

HERE = pathlib.Path(__file__).resolve().parents[1]


class NotTurned(Exception):
    """Why there is no such program."""


class Turn:
    """A text that stands once in a file of the repository, and what stands in its place. How far its lines are indented counts for nothing."""

    def __init__(self, file, old, new):
        self.file, self.old, self.new = file, old, new
        self.pattern = re.compile(r"\n[ \t]*".join(re.escape(line.strip()) for line in old.split("\n")))

    def turned(self, text):
        """The text of the file, turned."""
        count = len(self.pattern.findall(text))
        if count != 1:
            raise NotTurned(f"{self.file} has this text {count} times, and not once:\n{self.old}")
        if self.old == self.new:
            raise NotTurned(f"{self.file}: this text is turned to itself:\n{self.old}")
        return self.pattern.sub(lambda _: self.new, text)

    def text_in(self, folder):
        """The text of the file in a folder, turned."""
        file = folder / self.file
        if not file.is_file():
            raise NotTurned(f"there is no {self.file}")
        return self.turned(file.read_text(encoding="utf-8"))

    def place(self, folder):
        """Where the text begins in the file in a folder."""
        found = self.pattern.search((folder / self.file).read_text(encoding="utf-8"))
        return found.start() if found else 0

    def turn_in(self, folder):
        """Turns the file in a folder."""
        (folder / self.file).write_text(self.text_in(folder), encoding="utf-8")

    def faults(self, root):
        """Why it cannot be turned in a repository, if so."""
        try:
            self.text_in(root)
        except NotTurned as why:
            return str(why).splitlines()
        return []


def laid(root, folder, turns):
    """Copies what programs are built from into a folder, and turns texts there, one after another."""
    for source in sorted(root.glob("crates/*/src")):
        shutil.copytree(source, folder / source.relative_to(root))
    for name in ("crates.txt", "HANDLES"):
        shutil.copy(root / name, folder)
    for turn in turns:
        turn.turn_in(folder)


def built(root, folder, crate, turns):
    """The path of a program with turned texts, built in a folder, which is empty: without proofs, without checks, without optimization."""
    laid(root, folder, turns)
    output, errors, status = called([HERE / "quick_build", "--in", folder, crate], root)
    if status:
        raise NotTurned((output + errors).decode(errors="replace").strip())
    return pathlib.Path(folder, "crates", crate, "out/quick")


# Texts of a file with what is turned there, and whether it may be: it stands once, and something else stands in its place then.
TRIALS = (
    ("a text that stands once", "    one\n        two\n", "one\ntwo", "three", True),
    ("a text that stands twice", "one\none\n", "one", "two", False),
    ("a text that stands nowhere", "two\n", "one", "two", False),
    ("a text that is turned to itself", "one\n", "one", "one", False),
)


def is_turned(text, old, new):
    try:
        return Turn("a file", old, new).turned(text).strip() == new
    except NotTurned:
        return False


def check():
    """A result for each trial of what may be turned."""
    return [Result(name, is_turned(text, old, new) == wanted) for name, text, old, new, wanted in TRIALS]
