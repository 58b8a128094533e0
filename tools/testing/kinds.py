"""The session that has an answer of each kind: of each row of the table of answers in docs/COMMANDS.md, each refusal and each fault.

`C12 Memory` alone is none of a stored session: it comes where the memory for the last growth of the history limit is refused.
"""

import re

from . import refusal_page, sessions
from .answers import cells
from .tried import Result

NAME = "answers: an answer of each kind"
PAGE = "docs/COMMANDS.md"
GROWTH, GROWN, REFUSED = b"set record full insn-number-max 91\n", b"history 91\n", b"C12 Memory\n"

PLACE = r"at \d+:\d+ \w+ depth \d+ lanes [01]+\n"
STOPS = (r"breakpoint \d+: ", r"watch \d+: ", r"fault F\d \w+ lane \d+: ", r"history end: ", r"step limit: ")
BOOLS = r"\w+ =( (true|false)){4}\n"

# By the first cell of a row of the table, what a session with an answer of that kind has.
KINDS = {
    "goal or end": (rf"> step.*\n{PLACE}", r"> continue\nended\n"),
    "other stops": tuple(rf"\n{it}{PLACE}" for it in STOPS),
    "`undo`": (rf"> undo\nundone step: {PLACE}", rf"> undo\nundone poke: {PLACE}"),
    "`print`, `set var`": (
        r"> print (\w+)\n\1 = -?\d+\n",
        r"> print (\w+)\n\1 =( -?\d+){2}\n",
        r"> print (\w+)\n\1 =( -?\d+){4}\n",
        r"> print (\w+\[\d\])\n\1 = -?\d+\n",
        r"> set var (\w+) = (-?\d+)\n\1 = \2\n",
        r"> set var (\w+) = (-?\d+)\n\1 =( \2){4}\n",
        r"> set var (\w+\[\d\]) = (-?\d+)\n\1 = \2\n",
        BOOLS,
    ),
    "`break`; `watch`; `delete`": (
        r"> break \d+\nbreakpoint \d+ at line \d+\n",
        r"> watch (\w+)\nwatch \d+: \1\n",
        r"> delete (\d+)\ndeleted \1\n",
        r"> delete\ndeleted all\n",
    ),
    "`set record full insn-number-max`": (r"> set record full insn-number-max (\d+)\nhistory \1\n",),
    "`info breakpoints`": (r"> info breakpoints\n\d+ watch \w+\n\d+ breakpoint line \d+\n", r"> info breakpoints\nnone\n"),
    "`info locals`": (rf"> info locals\n{BOOLS}\w+ = ", r"> info locals\nnone\n"),
    "`backtrace`": (rf"> backtrace\n({PLACE}){{2}}", r"> backtrace\nended\n"),
    "refusal": (r"\nC\d+ \w+\n",),
}


def session(root):
    return next(it for it in sessions.sessions(root) if it.name == NAME)


def rows(root):
    """The first cells of the table of answers."""
    found, is_there = [], False
    for line in (root / PAGE).read_text(encoding="utf-8").splitlines():
        row = cells(line) if line.startswith("|") else []
        is_there = row == ["Answer", "Text"] or is_there and bool(row)
        found += row[:1] if is_there else []
    return [it for it in found[1:] if not re.fullmatch("-+", it)]


def check(root):
    """A result for each kind, and one for the refusals and faults, C12 being left to runs without memory."""
    said, results = session(root).said, []
    for kind in dict.fromkeys([*rows(root), *KINDS]):
        why = [] if kind in rows(root) else [f"{PAGE} has no such row"]
        why += [f"the session has no {it}" for it in KINDS.get(kind, ("answer of this kind",)) if not re.search(it, said)]
        results.append(Result(f"an answer: {kind}", not why, why))
    named = [it for it in refusal_page.names(root) if it[0] in "CF" and f"{it}\n".encode() != REFUSED]
    why = [f"the session has no {it}" for it in named if f"{it}\n" not in said and f"fault {it} lane" not in said]
    return [*results, Result("an answer with each refusal and fault", not why, why)]
