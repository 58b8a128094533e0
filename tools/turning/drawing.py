"""Turns of bodies that are drawn by chance: a constant, a comparison, an argument for its neighbour, an arm for its neighbour, a lost call."""

import random
import re

from testing.turned import NotTurned

from .bodies import Body
from .subjects import SUBJECTS

FUNCTION = re.compile(r"^ *(?:pub(?:\(crate\))? )?(?:const )?fn \w+")
SPEC = re.compile(r"^ *(?:ghost|requires|ensures|invariant|decreases|//|#\[)|[^\x00-\x7f]")
COMPARISONS = {" < ": " <= ", " <= ": " < ", " > ": " >= ", " >= ": " > ", " == ": " != ", " != ": " == ", " && ": " || ", " || ": " && "}
COMPARISON = re.compile("|".join(map(re.escape, COMPARISONS)))
NUMBER = re.compile(r"(?<![\w.\"'])\d+(?![\w.\"'])")
TRUTH = re.compile(r"\b(?:true|false)\b")
# A call of names alone, with what stands before it; and a function's head, with what it is given.
CALLED = re.compile(r"([.]?)\b([a-z]\w*)\(((?:[a-z]\w*, )+[a-z]\w*)\)")
HEAD = re.compile(r"\bfn (\w+)(?:<[^(]*>)?\(([^)]*)\)")
GIVEN = re.compile(r"(?:mut )?\w+: ([^,]+(?:<[^>]*>)?)")
CALL = re.compile(r"^ *(?:self\.)?[a-z][\w.:]*\([^{}]*\)\??;$")
# An arm that binds no name.
ARM = re.compile(r"^( *(?:[A-Z_][\w:]*|b?\"[^\"]*\"|\d+)(?: \| [A-Z][\w:]*)* => )([^{}]+),$")


class LineTurn:
    """Lines of a file, by their number, and what stands in their place."""

    def __init__(self, file, number, old, new):
        self.file, self.number, self.old, self.new = file, number, old, new

    def place(self, folder):
        """Where the lines begin in the file in a folder."""
        return sum(len(it) + 1 for it in (folder / self.file).read_text(encoding="utf-8").split("\n")[: self.number])

    def turn_in(self, folder):
        """Turns the file in a folder."""
        file = folder / self.file
        lines = file.read_text(encoding="utf-8").split("\n")
        at = slice(self.number, self.number + len(self.old))
        if lines[at] != self.old:
            raise NotTurned(f"{self.file} has other lines from {self.number + 1} on")
        lines[at] = self.new
        file.write_text("\n".join(lines), encoding="utf-8")


def types_of(root):
    """The types of what each function is given, by its name; those of several functions of one name only where they are the same."""
    found = {}
    for path in root.glob("crates/*/src/**/*.rt"):
        for name, given in HEAD.findall(path.read_text(encoding="utf-8")):
            found.setdefault(name, set()).add(tuple(it.strip() for it in GIVEN.findall(given)))
    return {name: next(iter(types)) for name, types in found.items() if len(types) == 1}


def exchanged(line, types):
    """The line with two neighbours of one type exchanged, which a call is given."""
    for found in CALLED.finditer(line):
        given, wanted = found[3].split(", "), types.get(found[2], ())
        for at in range(len(given) - 1):
            if len(wanted) == len(given) and wanted[at] == wanted[at + 1] and given[at] != given[at + 1]:
                other = [*given[:at], given[at + 1], given[at], *given[at + 2 :]]
                yield line[: found.start(3)] + ", ".join(other) + line[found.end(3) :]


def of_line(line, types):
    """What may stand in the place of a line of a body."""
    for found in COMPARISON.finditer(line):
        yield "comparison", line[: found.start()] + COMPARISONS[found[0]] + line[found.end() :]
    for found in NUMBER.finditer(line):
        yield "constant", f"{line[: found.start()]}{int(found[0]) + 1}{line[found.end() :]}"
    for found in TRUTH.finditer(line):
        yield "constant", line[: found.start()] + {"true": "false", "false": "true"}[found[0]] + line[found.end() :]
    for new in exchanged(line, types):
        yield "argument", new
    if CALL.match(line):
        yield "call", ""


def of_arms(one, other):
    """Two arms, one below the other, of which each has what the other one leads to."""
    first, second = ARM.match(one), ARM.match(other)
    if first and second and first[2] != second[2]:
        yield [f"{first[1]}{second[2]},", f"{second[1]}{first[2]},"]


def bodies_in(lines):
    """The numbers of the lines that stand in bodies of functions."""
    end, is_body = None, False
    for number, line in enumerate(lines):
        if FUNCTION.match(line):
            end, is_body = line[: len(line) - len(line.lstrip())] + "}", line.endswith("{")
        elif line == end:
            end, is_body = None, False
        elif end is not None and not is_body:
            is_body = line.endswith("{") and not SPEC.search(line)
        elif is_body and not SPEC.search(line):
            yield number


def turns_of(root, path, types):
    """All turns of a file: the kind, and the turn."""
    file, lines = path.relative_to(root).as_posix(), path.read_text(encoding="utf-8").split("\n")
    for number in bodies_in(lines):
        for kind, new in of_line(lines[number], types):
            yield kind, LineTurn(file, number, [lines[number]], [new])
        for new in of_arms(lines[number], lines[number + 1] if number + 1 < len(lines) else ""):
            yield "arm", LineTurn(file, number, lines[number : number + 2], new)


def drawn(root, count, seed, crates=()):
    """So many drawn bodies, or all where there are fewer, of each kind about as many, whichever of these crates they stand in, or of all."""
    chance, by_kind, types = random.Random(seed), {}, types_of(root)
    for subject, it in SUBJECTS.items():
        for crate in (name for name in it.crates if not crates or name in crates):
            for path in sorted((root / "crates" / crate / "src").rglob("*.rt")):
                for kind, turn in turns_of(root, path, types):
                    by_kind.setdefault(kind, []).append((subject, turn))
    found = []
    for number in range(min(count, sum(map(len, by_kind.values())))):
        kinds = sorted(kind for kind, turns in by_kind.items() if turns)
        kind = kinds[number % len(kinds)]
        subject, turn = by_kind[kind].pop(chance.randrange(len(by_kind[kind])))
        old, new = " / ".join(it.strip() for it in turn.old), " / ".join(it.strip() for it in turn.new) or "(nothing)"
        found.append(Body(f"{kind} of {turn.file}:{turn.number + 1}, {old} => {new}", subject, turn))
    return found
