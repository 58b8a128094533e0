"""The tables of commands with their answers in README.md and docs/: each is run on the source that is shown or named above it.

A source is shown as a block of text that has a function, and named as `examples/NAME.ispc`; one that is both has to be the same. A block of
lines `NAME = VALUE ..` behind it is the input of the tables under it. A place and lanes in brackets, as `[4:1 0101]`, stand for
`at 4:1 go depth 1 lanes 0101`. A cell `TEXT, 9 times` stands for so many lines, and `TEXT, N from 1 to 9` for these with each number in
place of N.
"""

import pathlib
import re

from . import examples
from .tried import Result, Run

PAGES = ("README.md", "docs/LANGUAGE.md", "docs/COMMANDS.md")

FENCE = "```"
NAMED = re.compile(r"`[^`]*\bexamples/(\w+)\.ispc\b[^`]*`")
INPUT = re.compile(r"(\w+ =( -?\w+)*\n)+")
PLACE = re.compile(r"\[(\d+:\d+) ([01]+)\]")
REPEATED = re.compile(r"(`.*`), (\d+) times")
COUNTED = re.compile(r"(`.*`), N from 1 to (\d+)")


class Table:
    """A table of commands with answers: its page and heading, its source, the options, the input if it has one, and both columns."""

    def __init__(self, reader):
        self.page, self.heading, self.memory = reader.page, reader.heading, reader.memory
        self.source, self.options, self.input_text = reader.source, reader.options, reader.input_text
        self.source_name = f"{pathlib.PurePath(self.page).stem}-{len(reader.tables):02}.ispc"
        self.commands, self.answers = [], []

    def add(self, cells):
        self.commands += lines_of(cells[0])
        self.answers += [PLACE.sub(r"at \1 go depth 1 lanes \2", it) for it in lines_of(cells[1]) if it]

    def name(self):
        return f"{self.page}, {self.heading}: {self.commands[0]}, .."

    def run(self):
        lines = ["".join(f"{it}\n" for it in them).encode() for them in (self.commands, self.answers)]
        input_words, data = examples.with_input(pathlib.PurePath(self.source_name).stem, self.input_text)
        words, data = [self.source_name, *self.options, *input_words], data | {self.source_name: self.source.encode()}
        return Run(self.name(), lines[0], words, lines[1], b"", 0, data, self.memory)


def lines_of(cell):
    """The line of a cell, or the lines of one that says how often it stands, or what N in it is."""
    repeated, counted = REPEATED.fullmatch(cell), COUNTED.fullmatch(cell)
    if repeated:
        return [text_of(repeated[1])] * int(repeated[2])
    if counted:
        return [re.sub(r"\bN\b", str(number), text_of(counted[1])) for number in range(1, int(counted[2]) + 1)]
    return [text_of(cell)]


def text_of(cell):
    """The text of a cell, without its backticks."""
    found = re.fullmatch(r"`(.*)`", cell)
    return (found[1] if found else cell).replace("\\|", "|")


def cells(line):
    return [it.strip() for it in re.split(r"(?<!\\)\|", line.strip())[1:-1]]


class Reader:
    """A page that is read line by line: the heading, the source and the table that it is at, and what was found."""

    def __init__(self, root, page):
        self.root, self.page = root, page
        self.heading, self.source, self.options, self.named, self.block, self.table = "", None, [], None, None, None
        self.input_text, self.memory = None, None
        self.tables, self.faults = [], []
        for line in (root / page).read_text(encoding="utf-8").splitlines():
            self.read(line)

    def read(self, line):
        if line.startswith(FENCE) or self.block is not None:
            self.read_block(line)
        elif line.startswith("|"):
            self.read_row(cells(line))
        else:
            self.table = None
            self.read_text(line)

    def read_block(self, line):
        if not line.startswith(FENCE):
            self.block.append(line)
        elif self.block is None:
            self.block = []
        else:
            text, self.block = "".join(f"{it}\n" for it in self.block), None
            self.take(text)

    def take(self, text):
        """Takes a block of text."""
        if re.search(r"^(export )?void \w+\(", text, re.M) and "{" in text:
            self.show(text)
        elif INPUT.fullmatch(text):
            self.input_text = text.encode()

    def show(self, text):
        """Takes a shown source: the one that was just named, or one of the page's own."""
        if self.named and self.source != text:
            self.faults.append(f"{self.heading}: examples/{self.named}.ispc is not what is shown")
        if not self.named:
            self.source, self.options, self.input_text, self.memory = text, [], None, None
        self.named = None

    def read_row(self, row):
        if self.table is None:
            is_of_answers = row[:2] == ["Command", "Answer"]
            self.table = Table(self) if is_of_answers else ()
            self.tables += [self.table] if is_of_answers else []
        elif self.table and not re.fullmatch(r"-*", row[0]):
            self.table.add(row)

    def read_text(self, line):
        if line.startswith("#"):
            self.heading, self.named = line.lstrip("# "), None
        for self.named in NAMED.findall(line)[:1]:
            file = self.root / f"examples/{self.named}.ispc"
            self.source = file.read_text(encoding="utf-8") if file.is_file() else None
            self.options = examples.arguments(self.root, self.named)
            self.input_text = examples.input_of(self.root, self.named)
            self.faults += [] if self.source else [f"{self.heading}: examples/{self.named}.ispc is not there"]
        if line and not NAMED.search(line):
            self.named = None


def readers(root):
    return [Reader(root, page) for page in PAGES]


def check(root):
    """A result for each page: its tables have sources, and the sources that it shows and names are the same."""
    found = readers(root)
    results = [Result(it.page, it.tables and not it.faults, it.faults or ["it has no table of answers"]) for it in found]
    bare = [f"{it.name()}: no source stands above it" for page in found for it in page.tables if it.source is None]
    return [*results, Result("the tables of answers", not bare, bare)]


def runs(root):
    return [it.run() for page in readers(root) for it in page.tables if it.source is not None]
