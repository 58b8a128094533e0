"""The code of `rinddecade` of right and of turned sources, and the program with one turned body."""

import itertools
import pathlib
import re
import tempfile

from testing.tool import tool
from testing.turned import NotTurned, laid

from .pieces import Code, replaceable
from .subjects import PROGRAM

# Without optimization: functions that may be replaced are called as they are, and it takes half the time.
LEVEL = "-O0"
# A body may never end: then its program does, after so many seconds of the processor.
LIMITED = '#!/bin/sh\nulimit -t 20\nexec "%s" "$@"\n'
FUNCTION = re.compile(r"^ *(?:pub(?:\([^)]*\))? )?(?:const )?fn (\w+)", re.M)


class NotMade(Exception):
    """Why there is no code."""


def function_of(root, turn):
    """The name of the function in which a text is turned, or None where it stands in none."""
    before = (root / turn.file).read_text(encoding="utf-8")[: turn.place(root)]
    found = FUNCTION.findall(before)
    return found[-1] if found else None


def copies(root, bodies):
    """The bodies by the copies of the sources that they are turned in: of each function one is in a copy, and as few copies as that takes."""
    made = []
    for body in bodies:
        body.function = function_of(root, body.turn)
        place = body.crate, body.function
        free = next((it for it in made if place not in {(other.crate, other.function) for other in it}), None)
        made.append([body]) if free is None else free.append(body)
    return made


def is_of(name, body):
    """Whether a function of the code is that in which a body is turned, or one within it. A method is named by the file of its type."""
    return name.strip('"').startswith(f"{body.crate}::") and re.search(rf"\b{body.function}\b", name) is not None


class Making:
    """The right code, compiled so that its functions may be replaced, in a folder."""

    def __init__(self, root, folder):
        self.root, self.folder, self.quick, self.numbers = root, folder, tool(root, "quick_build"), itertools.count()
        text = self.text_of(root)
        self.right = Code(text)
        self.object = self.quick.compiled(replaceable(text), LEVEL, folder, "right")

    def text_of(self, root):
        """The text of the code of the sources in a folder."""
        crate = next(it for it in self.quick.rt.crates_of(str(root)) if it.name == PROGRAM)
        with tempfile.TemporaryDirectory(prefix="code-") as folder:
            try:
                return self.quick.text(crate, pathlib.Path(folder))
            except self.quick.NotBuilt as why:
                raise NotMade(str(why)) from None

    def right_program(self):
        return self.linked([], "right")

    def linked(self, pieces, name):
        """The path of what runs a program of these pieces and all else of the right code."""
        limited = self.folder / f"{name}.sh"
        limited.write_text(LIMITED % self.quick.linked([*pieces, self.object], self.folder, name))
        limited.chmod(0o755)
        return limited

    def turned(self, copy):
        """Makes the code of a copy of the sources, and gives for each of its bodies a module of the functions that differ; none where none do."""
        with tempfile.TemporaryDirectory(prefix="turned-") as folder:
            try:
                laid(self.root, pathlib.Path(folder), [it.turn for it in copy])
            except NotTurned as why:
                raise NotMade(str(why)) from None
            code = Code(self.text_of(pathlib.Path(folder)))
        differing = code.differing(self.right)
        found = {body: [name for name in differing if is_of(name, body)] for body in copy}
        lost = set(differing) - {name for names in found.values() for name in names} - set(code.functions.keys() - self.right.functions.keys())
        if lost:
            raise NotMade(f"functions differ in which no body is turned: {', '.join(sorted(lost)[:8])}")
        return {body: code.piece(names, self.right) if names else "" for body, names in found.items()}

    def program_with(self, piece):
        """The program with a module in place of its own functions."""
        name = f"piece{next(self.numbers)}"
        return self.linked([self.quick.compiled(piece, LEVEL, self.folder, name)], name)
