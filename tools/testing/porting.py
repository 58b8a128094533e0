"""docs/PORTING.md: what is written for Intel's compiler, how it is refused here, and what is written in its place.

A row has lines of a source, which stand in the place of `...` in the source above its table; the refusal that they have, at the first place
of a text; the lines in their place, if there are some, or words; and the values that variables have where `go` ends, if they are told.
"""

import re

from . import answers, refusal_page
from .tried import Result, Run

PAGE = "docs/PORTING.md"
HEAD = ["ISPC", "Here", "Written here", "Gives"]
HOLE = re.compile(r"^( *)\.\.\.$", re.M)
REFUSED = re.compile(r"([A-Z]\d+) at `([^`]+)`")
SPANS = re.compile(r"`([^`]+)`")
SOURCE = "go.ispc"


class Row:
    """A row: the source around its lines, the lines of both forms, and what is told of them."""

    def __init__(self, frame, cells):
        self.frame, self.here = frame, cells[1]
        self.refused, self.written, self.gives = (self.lines(cells[at]) for at in (0, 2, 3))

    def lines(self, cell):
        """The lines of a cell, or none where it begins with words."""
        found = SPANS.findall(cell.replace("\\|", "|"))
        return found if cell.startswith("`") else []

    def source(self, lines):
        """The source with the lines in their place, and the number of the first of them."""
        hole = HOLE.search(self.frame)
        text = "\n".join(hole[1] + it for it in lines)
        return self.frame[: hole.start()] + text + self.frame[hole.end() :], self.frame[: hole.start()].count("\n") + 1, len(hole[1])

    def wrong(self, names):
        """What a row lacks, where refusals have these names."""
        found = REFUSED.fullmatch(self.here)
        is_told = found and found[1] in names and found[2] in "\n".join(self.refused)
        why = [] if is_told and self.refused else [f"{self.here} does not tell a refusal and a place in the first cell"]
        return why + ([] if bool(self.written) == bool(self.gives) else ["lines want values, and values lines"])

    def runs(self, names):
        return [self.run_of_refused(names)] + ([self.run_of_written()] if self.written else [])

    def run_of_refused(self, names):
        number, at = REFUSED.fullmatch(self.here).groups()
        source, line, indent = self.source(self.refused)
        before = "\n".join(self.refused).partition(at)[0]
        column = len(before.rpartition("\n")[2]) + 1 + indent
        errors = f"{line + before.count(chr(10))}:{column}: {number} {names[number]}\n"
        return Run(f"{PAGE}: {self.refused[0]}", b"", [SOURCE], b"", errors.encode(), 2, {SOURCE: source.encode()})

    def run_of_written(self):
        source = self.source(self.written)[0]
        last = len(source.splitlines())
        commands = [f"break {last}", "continue", *(f"print {it.split(' = ')[0]}" for it in self.gives)]
        output = [f"breakpoint 1 at line {last}", f"breakpoint 1: at {last}:1 go depth 1 lanes 1111", *self.gives]
        texts = ["".join(f"{it}\n" for it in lines).encode() for lines in (commands, output)]
        return Run(f"{PAGE}: {self.written[0]}", texts[0], [SOURCE], texts[1], b"", data={SOURCE: source.encode()})


class Page(answers.Reader):
    """The page, with its rows."""

    def __init__(self, root):
        self.rows, self.is_rows = [], False
        super().__init__(root, PAGE)

    def read_row(self, row):
        if row == HEAD:
            self.table, self.is_rows = (), True
        elif self.table is None or not self.is_rows:
            self.is_rows = False
            super().read_row(row)
        elif not re.fullmatch(r"-*", row[0]):
            self.rows.append(Row(self.source, row))

    def read_text(self, line):
        self.is_rows = False
        super().read_text(line)


def names(root):
    """The name of each refusal, by its number."""
    return dict(it.split() for it in refusal_page.names(root))


def check(root):
    """A result for the page: each row tells a refusal and its place, and values of what is written in its place."""
    page, known = Page(root), names(root)
    why = page.faults + [f"{row.refused}: {wrong}" for row in page.rows for wrong in row.wrong(known)]
    why += [] if page.rows else ["it has no row"]
    return [Result(PAGE, not why, why)]


def runs(root):
    page, known = Page(root), names(root)
    return [run for row in page.rows if not row.wrong(known) for run in row.runs(known)] + [it.run() for it in page.tables]
