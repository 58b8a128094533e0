"""The worked rows: programs, commands and the answers that were worked out by hand. They stand in worked/, a file for each subject.

A file begins with what its rows are about. A row begins with `=== NAME`, and says in the next line what it shows; runs alone show those of
`=== NAME | runs alone`, whose sources no tree spells, or whose answers the definitions compute in another row; those of `=== NAME | made` are
made by made_rows.py. Parts follow: `--- source`, or `--- source of NAME`, that of an earlier row; the lines of an `--- input` of the next run;
`--- run` with options, as `--- run width=8`, and its commands behind `> `, each with the lines of its answer; `--- report` and `--- refusal`
with theirs; and `--- refused REFUSAL`, a source that is refused at its mark `@`, which is no part of it.

An answer `[3:5 1111]` stands for the place text `at 3:5 go depth 1 lanes 1111`. In a line `\\t` is a tab, `\\x20` a blank at its end, and
`\\(x * 257)` an x so many times.
"""

import pathlib
import re
import sys

HERE = pathlib.Path(__file__).resolve().parent
sys.path.insert(0, str(HERE))

from made_rows import MADE  # noqa: E402
from row_parts import Row, Run, refused_at  # noqa: E402

# The files in the order of their rows.
FILES = ("statements", "debugger", "forms", "library", "control", "inputs", "input_ends", "divisions", "indices", "lane_indices", "assertions")
FILES += ("refusals", "order", "runs")
ROW, PART, COMMAND = "=== ", "--- ", ">"
ALONE, IS_MADE, OF = "runs alone", "made", "source of "
REPEATED, ESCAPED = re.compile(r"\\\((.*?) \* (\d+)\)"), re.compile(r"\\(t|x20|\\)")
NUMBERS = ("width", "history", "steps")


def plain(line):
    """A line without its escapes."""
    line = REPEATED.sub(lambda found: found[1] * int(found[2]), line)
    return ESCAPED.sub(lambda found: {"t": "\t", "x20": " ", "\\": "\\"}[found[1]], line)


def commands_of(lines):
    """The commands of a run, each with its answer: a line, or several or none."""
    found = []
    for line in lines:
        if line.startswith(COMMAND):
            found.append((plain(line.removeprefix(COMMAND).removeprefix(" ")), []))
        else:
            found[-1][1].append(plain(line))
    return [(command, answer[0] if len(answer) == 1 else answer) for command, answer in found]


def options_of(words):
    named = dict(it.split("=", 1) for it in words)
    return {name: int(value) if name in NUMBERS else value for name, value in named.items()}


class Parts:
    """The sources of a row with their runs, as its parts are read."""

    def __init__(self, sources):
        self.sources, self.found, self.input = sources, [], ""

    def read(self, head, lines):
        word, *words = head.split(" ")
        text = "\n".join(plain(it) for it in lines)
        if word == "refused":
            self.found.append(refused_at(text, " ".join(words)))
        elif word == "source":
            self.found.append((self.sources[words[1]] if words else text, []))
        elif word == "input":
            self.input = text
        else:
            self.found[-1][1].append(self.run(word, lines, options_of(words)))

    def run(self, word, lines, options):
        options["input"], self.input = self.input, ""
        if word == "refusal":
            return Run([], refusal=plain(lines[0]), **options)
        return Run([], report=[plain(it) for it in lines], **options) if word == "report" else Run(commands_of(lines), **options)


def row_of(text, sources):
    """The row of a text."""
    (name, _, kind), (shows, *parts) = text.split("\n")[0].partition(" | "), text.removesuffix("\n").split(f"\n{PART}")
    if kind == IS_MADE:
        return MADE[name]
    found = Parts(sources)
    for part in parts:
        head, *lines = part.split("\n")
        found.read(head, lines)
    return Row(name, shows.split("\n")[1], found.found, is_computed=kind != ALONE)


def read():
    """For each file its name, what its rows are about, and these."""
    tables, sources = [], {}
    for file in FILES:
        about, *texts = (HERE / "worked" / f"{file}.rows").read_text(encoding="utf-8").split(f"\n{ROW}")
        rows = []
        for text in texts:
            rows.append(row_of(text.rstrip("\n"), sources))
            sources[rows[-1].name] = rows[-1].parts[0][0]
        tables.append((file, about.strip(), rows))
    return tables


TABLES = read()
ROWS = [row for _, _, rows in TABLES for row in rows]
