"""The table of commands in docs/COMMANDS.md: it has the commands that the program reads, and each is answered, and not as a line that
spells none."""

import re

from .examples import script
from .tried import Result, Run

EXAMPLE = "first"
REFUSED = b"C1 BadCommand"

# What stands for the placeholders of the table, on the example.
VALUES = {"[N]": "1", "N": "1", "T": "x", "NAME": "x", "NAME[K]": "x[0]", "V": "0"}


def cells(line):
    return [it.strip() for it in line.strip().strip("|").split("|")]


def rows(root):
    """The rows of the table of commands, each as its cells by the names of their columns."""
    found, columns = [], None
    for line in (root / "docs/COMMANDS.md").read_text(encoding="utf-8").splitlines():
        if not line.startswith("|"):
            columns = None
        elif columns is None:
            columns = cells(line)
        elif columns[:2] == ["Command", "Does"] and not re.fullmatch(r"[|\s:-]+", line):
            found.append(dict(zip(columns, cells(line))))
    return found


def lines_of(cell):
    """A command line for each form of a cell, as `step 1` and `s 1` of "`step [N]`, `s`"."""
    forms = [form.split() for form in re.findall(r"`([^`]*)`", cell)]
    given = [word for word in forms[0] if word in VALUES or word == "="] if forms else []
    lines = []
    for number, form in enumerate(forms):
        words = form + (given if number and not any(word in VALUES for word in form) else [])
        lines.append(" ".join(VALUES.get(word, word) for word in words))
    return lines


def commands(root):
    return [line for row in rows(root) for line in lines_of(row["Command"])]


def words_read(root):
    """The words of each command that the program reads."""
    text = (root / "crates/debug_commands/src/table.rt").read_text(encoding="utf-8")
    return {" ".join(re.findall(r'b"([^"]+)"', it)) for it in re.findall(r"Entry\(\s*&\[([^\]]*)\]", text)}


def words_shown(root):
    """The words of each command of the table, without what stands for a value."""
    forms = [form.split() for row in rows(root) for form in re.findall(r"`([^`]*)`", row["Command"])]
    return {" ".join(word for word in form if word not in VALUES and word != "=") for form in forms}


def check(root):
    """A result for each command of the table, which stands there once, and one for the commands that the program reads."""
    found = commands(root)
    if not found:
        return [Result("the table of commands", False, ["docs/COMMANDS.md has no table with the columns Command and Does"])]
    only_one = sorted(words_read(root) ^ words_shown(root))
    same = Result("the commands that the program reads", not only_one, [f"only one of the two has: {it}" for it in only_one])
    return [*(Result(it, found.count(it) == 1, ["it is there twice"]) for it in found), same]


def runs(root):
    """A run for each command, after one step of the example."""
    return [run(root, it) for it in commands(root)]


def run(root, line):
    def judged(output):
        answers = output.splitlines()[1:]
        return [f"it is answered: {REFUSED.decode()}"] if REFUSED in answers else []

    return Run(f"command {line}", script(root, EXAMPLE, f"step\n{line}\n".encode()), [], judged, b"")
