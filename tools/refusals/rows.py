#!/usr/bin/env python3
"""Writes the rows of crates/tests_refusals/proofs from table.py: what the definitions compute for each source."""

import pathlib
import sys

sys.path.insert(0, str(pathlib.Path(__file__).resolve().parents[1]))
from row_files import WORDS, comment, imports  # noqa: E402
from table import FIRST_WORDS, LISTED, TABLES, TYPED  # noqa: E402
from tree_of_source import Reader, items, name, tree_of  # noqa: E402

PROOFS = pathlib.Path(__file__).resolve().parents[2] / "crates/tests_refusals/proofs"

HEAD = (
    WORDS
    + """use Rattle.gang_model.specs.declared.refusals.RefusalNumber.TheVariants.{S5, S6, S7, S8, S9, S10, S11, S12, S13}
use Rattle.gang_model.specs.Types.SourceRefusals.{refusal_of}
use Rattle.tests_refusals.proofs.Wanted.{refused, accepted, type_of, has_type, listed_at, first_words}
"""
)
OPENED = "unfolding value_of residue word_of value_in wrapped binary_of\n"


def write(file, title, code):
    (PROOFS / f"{file}.antt").write_text(f"-- {title}\n" + imports(HEAD, code) + code)


def noted(source, note=None):
    """The source as a comment, a long one by its ends, with its note."""
    shown = source if len(source) < 1500 else source[:60].replace("\n", " ") + " .. " + source[-60:].replace("\n", " ")
    return "\n" + comment(shown) + (f"-- ({note})\n" if note else "")


def tree_term(number, source):
    return f"abbrev tree_{number} : ParsedSource\ntree_{number} ={tree_of(source)}\n\n"


def row_term(number, left, right, opened=""):
    return f"row_{number} : {left} ≡ {right}\n{opened}row_{number} = refl\n"


def refusal_rows(rows):
    code = ""
    for number, (source, want, note) in enumerate(rows):
        right = "accepted" if want is None else f"refused {want}"
        code += noted(source, note) + tree_term(number, source) + row_term(number, f"refusal_of tree_{number}", right, OPENED)
    return code


def typed_rows():
    code = ""
    for number, (expression, want) in enumerate(TYPED):
        value_type, rate = want.split()
        code += f"\n-- {expression}\n" + row_term(number, f"type_of {Reader(expression).expression()}", f"has_type t.{value_type} {rate}")
    return code


def listed_rows():
    code = ""
    for number, (source, function, steps, *notes) in enumerate(LISTED):
        want = items([items([name(it) for it in names]) for names in steps])
        code += noted(source, *notes) + tree_term(number, source) + row_term(number, f"listed_at tree_{number} {function}", want)
    return code


def word_rows():
    code = ""
    for number, (source, want) in enumerate(FIRST_WORDS):
        code += noted(source) + row_term(number, f"first_words ({tree_of(source)})", f"{want} ∷ []", OPENED)
    return code


def main():
    for file, title, rows in TABLES:
        write(file, title, refusal_rows(rows))
    write("TypedRows", "Rows of the types and rates of expressions.", typed_rows())
    write("ListedRows", "Rows of the names that the debugger lists at each step of a function, the closing brace last.", listed_rows())
    write("WordRows", "Rows of the first words of file-scope variables.", word_rows())
    # LimitRows.antt is written by hand: its declarations are counted, not listed
    rows = [it[0] for it in TABLES] + ["LimitRows", "TypedRows", "ListedRows", "WordRows"]
    (PROOFS / "Lib.antt").write_text("pub mod Wanted\n" + "".join(f"mod {it}\n" for it in rows))


main()
