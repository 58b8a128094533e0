"""The tables of a page, row by row."""

import re


def cells(line):
    return [it.strip() for it in re.split(r"(?<!\\)\|", line)[1:-1]]


def rows(page, columns):
    """The rows of a page's tables that have these columns, each with its line and its cells by the names of the columns."""
    found = None
    for number, line in enumerate(page.read_text(encoding="utf-8").splitlines(), 1):
        if not line.startswith("|"):
            found = None
        elif found is None:
            found = cells(line)
        elif found == columns and not re.fullmatch(r"[|\s-]+", line):
            yield number, dict(zip(found, cells(line)))
