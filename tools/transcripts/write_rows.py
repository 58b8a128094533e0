#!/usr/bin/env python3
"""Writes the worked rows as proofs of the crate tests_transcripts: `write_rows.py [NAME ..]`, all rows if none is named."""

import pathlib
import sys

sys.path.insert(0, str(pathlib.Path(__file__).resolve().parents[1]))
from row_files import WORDS, comment, imports  # noqa: E402
from rows import ROWS  # noqa: E402
from tree_of_source import tree_of  # noqa: E402

PROOFS = pathlib.Path(__file__).resolve().parents[2] / "crates/tests_transcripts/proofs"


def text(bytes_):
    return 'codes "' + bytes_.replace("\n", "\\n").replace("\t", "\\t") + '"'


def start(run):
    return f"run_from (Some ({text(run.entry)}))" if run.entry else "run"


def run_term(source, run, name):
    return (
        f"{name} : {start(run)} {source} ({text(run.input)}) (options {run.width} {run.history} {run.steps})\n"
        + f"    ({text(run.commands())})\n    ≡ {text(run.transcript())}\n"
        + f"unfolding digits value_of residue word_of value_in wrapped binary_of\n{name} = refl\n"
    )


def file_of(row):
    parts = []
    count = 0
    for n, (source, runs) in enumerate(row.parts):
        term = "source" if len(row.parts) == 1 else f"source_{n + 1}"
        parts.append(comment(source) + f"abbrev pub {term} : ParsedSource\n{term} ={tree_of(source)}\n")
        for run in runs:
            count += 1
            parts.append(run_term(term, run, f"row_{count}"))
    code = "\n".join(parts)
    return comment(row.shows[0].upper() + row.shows[1:] + ".") + imports(WORDS, code) + "\n" + code


def main():
    for row in (it for it in ROWS if it.is_computed):
        if not sys.argv[1:] or row.name in sys.argv[1:]:
            (PROOFS / f"{row.name}.antt").write_text(file_of(row))
    names = sorted(path.stem for path in PROOFS.glob("*.antt") if path.stem != "Lib")
    (PROOFS / "Lib.antt").write_text("".join(f"pub mod {name}\n" for name in names))


main()
