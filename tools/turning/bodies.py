"""The wrong bodies of bodies.txt: each has a name, the subject whose tests are to find it, a file, and a text in place of one that stands there."""

import pathlib
import re
import tempfile

from testing.tried import Result
from testing.turned import NotTurned, Turn, laid

from .making import copies
from .subjects import SUBJECTS

FILE = pathlib.Path(__file__).with_name("bodies.txt")
HEAD, OLD, NEW = "=== ", "- ", "+ "
PAGE, CITED = "docs/PROOFS.md", re.compile(r"\bbody `(\w+)`")


class Body:
    """A body that is turned."""

    def __init__(self, name, subject, turn):
        self.name, self.subject, self.turn = name, subject, turn
        self.crate = turn.file.split("/")[1]


def body(text):
    head, file, *lines = text.strip().split("\n")
    name, _, subject = head.partition(" | ")
    marked = lambda mark: "\n".join(line.removeprefix(mark) for line in lines if line.startswith(mark))
    return Body(name, subject, Turn(file, marked(OLD), marked(NEW)))


def listed():
    """All of them, in the order of the file."""
    return [body(it) for it in ("\n" + FILE.read_text(encoding="utf-8")).split("\n" + HEAD)[1:]]


def faults(root, it, names):
    """Why a body is none: its name is there twice, its subject is unknown or tries other crates, or its text does not stand in its file once."""
    why = [] if names.count(it.name) == 1 else ["its name is there twice"]
    if it.subject not in SUBJECTS or it.crate not in SUBJECTS[it.subject].crates:
        why.append(f"{it.crate} is no crate of the tests of {it.subject}")
    return why + it.turn.faults(root)


def cited(root):
    """The bodies that docs/PROOFS.md names."""
    return CITED.findall((root / PAGE).read_text(encoding="utf-8"))


def together(root, found):
    """Why the bodies of a copy of the sources cannot be turned together: a text that one turns may be that of another one then."""
    why = []
    for copy in copies(root, found):
        with tempfile.TemporaryDirectory(prefix="turned-") as folder:
            try:
                laid(root, pathlib.Path(folder), [it.turn for it in copy])
            except NotTurned as fault:
                why += str(fault).splitlines()
    return why


def check(root):
    """A result for each body: it can be turned; one for those that are turned together; and one for the page that names some: they are there."""
    found = listed()
    names = [it.name for it in found]
    results = [Result(it.name, not why, why) for it in found for why in [faults(root, it, names)]]
    beside = together(root, found) if all(it.passed for it in results) else []
    gone = [f"the body {it} is not there" for it in cited(root) if it not in names]
    return [*results, Result("bodies that are turned together", not beside, beside), Result(f"the bodies of {PAGE}", not gone, gone)]
