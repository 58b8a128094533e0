#!/usr/bin/env python3
"""Writes the worked rows as tables of the crate tests_rows, whose tests run them."""

import pathlib
import re

from rows import TABLES

FOLDER = pathlib.Path(__file__).resolve().parents[2] / "crates/tests_rows/src/table"

# What ends each field of a row but the last, and each row. Neither stands in a row.
FIELD, END = "@", "$\n"

HEAD = """//! {about} Written by `tools/transcripts/write_tests.py`.

/// Rows as `crate::row` reads them.
pub(crate) const ROWS: &str = "\\
{rows}";
"""


def words_of(run):
    named = [("--width", run.width, 4), ("--history", run.history, 64), ("--steps", run.steps, 1000000), ("--entry", run.entry, "")]
    words = [f"{name} {value}" for name, value, usual in named if value != usual]
    return " ".join(words + (["--lane-pure"] if run.report else []))


def row_of(name, source, run):
    commands = "step\n" if run.refusal else run.commands()
    fields = [name, words_of(run), source, run.input, commands, run.transcript()]
    assert not any(FIELD in it or END[0] in it for it in fields), name
    return FIELD.join(fields) + END


def literal(text):
    """The text as it stands in a literal, where no line ends in a blank."""
    shown = text.replace("\\", "\\\\").replace('"', '\\"').replace("\t", "\\t").replace("\r", "\\r")
    return re.sub(r" $", r"\\u{20}", shown, flags=re.M)


def table(about, rows):
    runs = [(row.name, source, run) for row in rows for source, given in row.parts for run in given]
    return HEAD.format(about=about, rows=literal("".join(row_of(*it) for it in runs)))


def main():
    for file, about, rows in TABLES:
        (FOLDER / f"{file}.rt").write_text(table(about, rows))
    modules = sorted(file for file, _, _ in TABLES)
    head = "//! The worked rows, table by table. Written by `tools/transcripts/write_tests.py`.\n"
    (FOLDER.parent / "table.rt").write_text(head + "".join(f"pub(crate) mod {it};\n" for it in modules))


main()
