"""The page docs/PROMISES.md: each function and clause that keeps a promise, each wrong body and each test that it names is there.

A promise that no clause keeps says so: it is tested only, and names a test, or neither.
"""

import re

from .tables import rows
from .tool import tool
from .tried import Result

PAGE = "docs/PROMISES.md"
COLUMNS = ["Promise", "Kept by", "Wrong body", "Tested by"]
KEPT = re.compile(r"`(\w+)::(\w+)`(?: \(((?:`\w+`(?:, )?)+)\))?")
EDIT = re.compile(r"`(\w+/must-fail/\w+\.edit)`")
TEST = re.compile(r"`(\w+)` of `(tests_\w+)`|`([^`]+)` of `(sessions/\w+\.session)`|`(tools/(?:testing/\w+\.py|test_editors))`")
TESTED, NEITHER = "tested only", "neither"


class Clauses:
    """The names of the clauses of each function of a crate, for functions that have one; a clause without a name has an empty one."""

    def __init__(self, root):
        self.root, self.where, self.found = root, tool(root, "where"), {}

    def of(self, crate):
        if crate not in self.found:
            self.found[crate] = {}
            for file in sorted((self.root / "crates" / crate / "src").rglob("*.rt")):
                for it in self.where.functions(file):
                    names = [re.match(r"ensures\s*(\w*)", clause) for _, clause, _ in it.clauses]
                    self.found[crate].setdefault(it.name, set()).update(name[1] for name in names if name)
        return self.found[crate]


def unkept(kept, clauses):
    """What a cell names of functions and clauses that is not there."""
    if KEPT.sub("", kept).replace(";", "").strip():
        yield f"it names more than functions and clauses: {kept}"
    for crate, function, named in KEPT.findall(kept):
        there = clauses.of(crate).get(function)
        if not there:
            yield f"{crate} has no function {function} with a clause"
            continue
        wanted = re.findall(r"\w+", named)
        yield from (f"{function} of {crate} has no clause {it}" for it in wanted if it not in there)
        if not wanted and "" not in there:
            yield f"{function} of {crate} has clauses with names: {', '.join(sorted(there))}"


def untested(root, tests):
    """What a cell names of tests that is not there."""
    if TEST.sub("", tests).replace(",", "").strip():
        yield f"it names more than tests: {tests}"
    for function, crate, session, file, path in TEST.findall(tests):
        if function:
            files = (root / "crates" / crate / "src").rglob("*.rt")
            is_there = any(re.search(rf"#\[test\]\s+fn {function}\b", it.read_text(encoding="utf-8")) for it in files)
        elif session:
            it = root / file
            heads = re.findall(r"^=== ([^|\n]*?)(?: \| .*)?$", it.read_text(encoding="utf-8"), re.M) if it.is_file() else []
            is_there = session in heads
        else:
            is_there = (root / path).is_file()
        if not is_there:
            yield f"there is no test {function or session or path}"


def missing(root, row, clauses):
    """What a row names that is not there, or lacks."""
    kept, edits, tests = (row[it] for it in COLUMNS[1:])
    if EDIT.sub("", edits).replace(",", "").strip():
        yield f"it names more than wrong bodies: {edits}"
    yield from (f"there is no {it}" for it in EDIT.findall(edits) if not (root / "crates" / it).is_file())
    yield from untested(root, tests)
    if kept in (TESTED, NEITHER):
        if edits or bool(tests) != (kept == TESTED):
            yield f"{kept}: a test and no wrong body stand where it is tested only, and nothing where it is neither"
    elif not kept:
        yield "nothing keeps it"
    else:
        yield from unkept(kept, clauses)


def check(root):
    """One result: all that the page names is there."""
    if not (root / PAGE).is_file():
        return [Result(f"{PAGE}: its names", False, ["it is not there"])]
    clauses, found = Clauses(root), list(rows(root / PAGE, COLUMNS))
    why = [f"line {number}: {it}" for number, row in found for it in missing(root, row, clauses)]
    return [Result(f"{PAGE}: its names", found and not why, why or ["it has no table of promises"])]
