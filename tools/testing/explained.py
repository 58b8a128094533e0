"""The pages of `rinddecade explain`: crates/refusal_pages has the text of docs/REFUSALS.md, as plain lines.

`tools/refusal_pages --write` writes the crate's texts and its list from the page.
"""

import difflib
import pathlib
import re
import textwrap

from . import answers
from .tried import Result, Run

PAGE = "docs/REFUSALS.md"
CRATE = "crates/refusal_pages/src"
HEADING = re.compile(r"### ([A-Z]\d+) (\w+)$")
LINK = re.compile(r"\[([^\]]+)\]\([^)]*\)")
WIDTH = 78
INDENT = "    "

# The files of texts: the letters of their entries, and what they are about.
FILES = {
    "source_texts": ("S", "refusals of a source"),
    "run_texts": ("EI", "refusals of an entry, a script or an input"),
    "fault_texts": ("F", "faults of a running program"),
    "command_texts": ("C", "refusals of commands"),
}


def entries(root):
    """For each entry of the page, in order, its number, its word, and the lines of its text."""
    found, lines = [], None
    for line in (root / PAGE).read_text(encoding="utf-8").splitlines():
        heading = HEADING.match(line)
        if heading:
            lines = []
            found.append((heading[1], heading[2], lines))
        elif line.startswith("#") or line == "There is no C5.":
            lines = None
        elif lines is not None:
            lines.append(line)
    return [(number, word, plain(lines)) for number, word, lines in found]


def plain(lines):
    """Lines of a page as plain text: paragraphs in lines of at most so many characters, blocks and tables behind blanks."""
    told, is_block, is_table = [], False, False
    for line in lines:
        if line.startswith("```"):
            is_block = not is_block
        elif is_block:
            told.append(f"{INDENT}{line}".rstrip())
        elif line.startswith("|"):
            told += row(answers.cells(line)) if is_table else []
            is_table = True
        else:
            is_table = False
            told += wrapped(LINK.sub(r"docs/\1", line))
    text = re.sub(r"\n{3,}", "\n\n", "\n".join(told)).strip("\n")
    return f"{text}\n"


def wrapped(paragraph):
    """The lines of a paragraph, none of which ends within backticks."""
    held = re.sub(r"`[^`]*`", lambda code: code[0].replace(" ", "\0"), paragraph)
    return [it.replace("\0", " ") for it in textwrap.wrap(held, WIDTH, break_on_hyphens=False)] or [""]


def row(cells):
    """A command behind `> ` and its answer, and what is said of it."""
    if re.fullmatch(r"-*", cells[0]):
        return []
    command, answer = (cell.replace("`", "").replace("\\|", "|") for cell in cells[:2])
    note = f"  ({cells[2].replace('`', '')})" if cells[2:] and cells[2] else ""
    return [f"{INDENT}> {command}", *([f"{INDENT}{answer}{note}"] if answer or note else [])]


def function(word):
    """The name of the function that gives the text of an entry."""
    return re.sub(r"(?<=[a-z])(?=[A-Z])", "_", word).lower() + "_text"


def literal(text):
    """A text as a literal that begins behind its first line."""
    escaped = text.replace("\\", "\\\\").replace('"', '\\"')
    if not escaped.isascii():
        raise ValueError("a text has a character outside ASCII")
    return f'b"\\\n{escaped}"'


def files(root):
    """The files of the crate that are made from the page, by their paths."""
    found = entries(root)
    made = {}
    for name, (letters, about) in FILES.items():
        head = f"//! The texts of the {about}, as `tools/refusal_pages` writes them from docs/REFUSALS.md.\n"
        parts = [f"pub(crate) fn {function(word)}() -> &'static [u8] {{\n    {literal(text)}\n}}\n" for number, word, text in found if number[0] in letters]
        made[f"{CRATE}/{name}.rt"] = "\n".join([head, *parts])
    return made


def check(root):
    """A result for each file that is made from the page: it is what would be written."""
    results = []
    for path, text in files(root).items():
        file = pathlib.Path(root, path)
        there = file.read_text(encoding="utf-8") if file.is_file() else ""
        why = list(difflib.unified_diff(there.splitlines(), text.splitlines(), path, PAGE, lineterm="", n=0))
        results.append(Result(path, not why, why and [*why, "`tools/refusal_pages --write` writes it anew"]))
    return results


def runs(root):
    """`rinddecade explain` of each number and of each word, in small letters, and of a name that is none."""
    made = []
    for number, word, text in entries(root):
        page = f"{number} {word}\n\n{text}".encode()
        made += [Run(f"explain {it}", b"", ["explain", it], page, b"") for it in (number, word.lower())]
    return [*made, Run("explain C5", b"", ["explain", "C5"], b"", None, 2)]
