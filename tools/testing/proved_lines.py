"""What a landing takes from proved.txt, on a small repository of two crates.

Lines that stand spare the proofs, what changed is proved with all above it that reads it, and a line that was forged is found by the whole gate,
and by a landing that draws its crate. On a short disk the same is judged.
"""

import os
import pathlib
import re
import shutil
import sys
import tempfile

from .calls import called
from .tried import Result

FILE = "proved.txt"
LOWER, UPPER = "lower", "upper"
CRATES = f"{LOWER}:\n{UPPER}: {LOWER}\n"
SOURCES = {
    LOWER: """\
//! The smaller of two numbers.
#![tactic(auto)]

ghost use Rattle.lower.specs.Named.{IsAtMost};

/// The smaller of two numbers.
pub fn smaller(a: u32, b: u32) -> u32
    ensures first { IsAtMost a result }
    ensures second { IsAtMost b result }
{
    if a < b { a } else { b }
}
""",
    UPPER: """\
//! The smaller of a number and 7.
#![tactic(auto)]

ghost use Rattle.std.specs.Prelude.{◌≤◌};

use lower::smaller;

/// A number that is not above 7.
pub fn at_most_7(a: u32) -> u32
    ensures { result ≤ 7 }
{
    smaller(a, 7)
}
""",
}
# The lower one's definitions: one that its source names, and one that nothing does.
NAMED, UNNAMED = "Named", "Unnamed"
DEFINITIONS = {
    "Lib": f"pub mod {NAMED}\npub mod {UNNAMED}\n",
    NAMED: """\
-- Numbers that have a bound.
use Rattle.std.specs.Prelude.{ℕ, ◌≤◌}

-- a number is at most another one
abbrev pub IsAtMost : (most n : ℕ) → Type 0
IsAtMost most n = n ≤ most
""",
    UNNAMED: """\
-- A number.
use Rattle.std.specs.Prelude.{ℕ}

-- seven
abbrev pub seven : ℕ
seven = 7
""",
}
# Of each crate a body, and a wrong one.
BODIES = {LOWER: ("if a < b { a } else { b }", "a"), UPPER: ("smaller(a, 7)", "smaller(a, 8)")}
# Another right body of the lower one, and another name of what it promises.
OTHER_BODY = (BODIES[LOWER][0], "if b < a { b } else { a }")
OTHER_NAME = ("ensures first {", "ensures least {")
# Lines of another toolchain: of a crate that is there, and of one that is not.
OTHERS = tuple(f"{it} 0123456789abcdef proof, 1 edits by 01234567 89abcdef with another-kit" for it in (LOWER, "gone"))
# The landing without the trial of its judges, with so many crates drawn; and one that only writes the lines of the crates as they stand.
LANDS = """\
import runpy, sys
tools, sys.dont_write_bytecode = sys.argv[1], True
sys.path.insert(0, f"{tools}/judging")
import proved, selftest
proved.DRAWN, selftest.passes = int(sys.argv[2]), lambda *_: True
sys.argv[1:] = sys.argv[3:]
runpy.run_path(f"{tools}/prove", run_name="__main__")
"""
# The same where no disk has room enough.
LANDS_WITH_NO_ROOM = LANDS.replace("import proved, selftest\n", "import proved, selftest, store\nstore.ROOMY = 10**30\n")
# Lines as an earlier judge of edits has written them, whose verdicts count.
AGES = """\
import sys
sys.dont_write_bytecode = True
sys.path.insert(0, f"{sys.argv[1]}/judging")
import proved
earlier = {now: it for it, now in proved.SAME_VERDICTS.items()}
with open(proved.FILE, encoding="utf-8") as it:
    text = it.read()
with open(proved.FILE, "w", encoding="utf-8") as it:
    it.write(" ".join(earlier.get(word, word) for word in text.split(" ")))
"""
FORGES = """\
import os, runpy, sys
tools, sys.dont_write_bytecode = sys.argv[1], True
sys.path.insert(0, f"{tools}/judging")
import proved
proved.write(os.getcwd(), runpy.run_path(f"{tools}/prove")["Landing"](os.getcwd()).lines)
"""


class Small:
    """The small repository, with a store of its own, and what was not as it must be."""

    def __init__(self, tools, top):
        self.tools, self.root, self.store, self.why = str(tools), top / "small", top / "store", []
        write(self.root / "crates.txt", CRATES)
        for name, text in SOURCES.items():
            write(self.source(name), text)
            right, wrong = BODIES[name]
            write(self.root / f"crates/{name}/must-fail/wrong_body.edit", f"file: src/lib.rt\nold: {right}\nnew: {wrong}\n")
        for name, text in DEFINITIONS.items():
            write(self.root / f"crates/{LOWER}/specs/{name}.antt", text)

    def source(self, name):
        return self.root / f"crates/{name}/src/lib.rt"

    def change(self, name, old, new):
        text = self.source(name).read_text(encoding="utf-8")
        write(self.source(name), text.replace(old, new))

    def tell_more(self, module):
        """Changes what the lower one's module says of itself."""
        write(self.root / f"crates/{LOWER}/specs/{module}.antt", DEFINITIONS[module].replace("\n", " Once more.\n", 1))

    def left_of(self, name, is_judged):
        """Whether just this is left to do of a crate: nothing, by its line, or all of it."""
        listed, _ = self.called(LANDS, "0", "--list")
        return f"{name}: nothing left (proved.txt)" in listed.splitlines() if is_judged else f"{name}: proof, 1 edits" in listed.splitlines()

    def forget(self):
        """Leaves nothing of the store, nor of what was built."""
        shutil.rmtree(self.store, ignore_errors=True)
        for name in SOURCES:
            shutil.rmtree(self.root / f"crates/{name}/out", ignore_errors=True)

    def called(self, program, *words):
        words = ["env", f"RINDDECADE_STORE={self.store}", sys.executable, "-c", program, self.tools, *words]
        output, errors, status = called(words, self.root)
        return (output + errors).decode(errors="replace"), status

    def lines(self):
        """The lines of proved.txt by their crates, but those of another toolchain."""
        return {it.split()[0]: it for it in self.all_lines() if it not in OTHERS}

    def all_lines(self):
        file = self.root / FILE
        text = file.read_text(encoding="utf-8") if file.is_file() else ""
        return [it for it in text.splitlines() if not it.startswith("#")]

    def lands(self, what, end, made, drawn=0, program=LANDS, words=()):
        """A landing ends with this line, and makes these steps alone."""
        said, _ = self.called(program, str(drawn), *words)
        # (on a busy machine the toolchain says that a step waits for another one)
        said = "\n".join(it for it in said.splitlines() if not it.startswith("rt: waiting for another rt to finish"))
        found = sorted(re.findall(r"^ *\d+ s  (\w+: \w+)(?: \S+\.edit)? (?:passed|FAILED),", said, re.M))
        if said.rstrip().rpartition("\n")[2] != end or found != sorted(made):
            self.why += [f"{what}: it makes {', '.join(found) or 'nothing'}, and says:", *said.splitlines()[-12:]]

    def must(self, what, holds):
        self.why += [] if holds else [f"{what}: {self.lines()}"]


def write(path, text):
    path.parent.mkdir(parents=True, exist_ok=True)
    path.write_text(text, encoding="utf-8")


def crates_that_are_named(small):
    """A crate that is named is judged alone, over the proofs of what lies below it; with `--proofs` it is proved alone."""
    small.lands("the lower one is named", "2 passed, 0 failed", [f"{LOWER}: {it}" for it in ("proof", "edit")], words=[LOWER])
    small.must("the other has no line", [*small.lines()] == [LOWER])
    small.lands("the upper one is left out", "2 passed, 0 failed", [], words=["--but", "upp*"])
    small.lands("proofs alone", "2 passed, 0 failed", [f"{UPPER}: proof"], words=["--proofs"])
    small.must("it has no line still", [*small.lines()] == [LOWER])
    small.forget()
    os.remove(small.root / FILE)


def lines_that_stand(small):
    """Both are judged, and then taken; and where the upper one changes, it is proved, and of the lower one what it needs."""
    small.lands("an empty store", "4 passed, 0 failed", [f"{name}: {it}" for name in SOURCES for it in ("proof", "edit")])
    first = small.lines()
    small.must("each crate has a line", sorted(first) == [LOWER, UPPER] and all("proof, 1 edits by" in it for it in first.values()))
    small.forget()
    small.lands("both lines stand", "4 passed, 0 failed", [])
    small.must("the lines stay", small.lines() == first)
    small.lands("the lower one of two that are drawn is named", "3 passed, 0 failed", [f"{LOWER}: {it}" for it in ("proof", "edit")], drawn=2, words=[LOWER])
    small.must("the line of the other one stays", small.lines() == first)
    small.forget()
    small.called(AGES)
    aged = small.lines()
    small.lands("lines by an earlier judge stand", "4 passed, 0 failed", [])
    small.must("they stay as they are", small.lines() == aged)
    write(small.root / FILE, "".join(f"{it}\n" for it in [*first.values(), *OTHERS]))
    small.change(UPPER, "A number that is", "Some number that is")
    small.lands("the upper one changed", "4 passed, 0 failed", [f"{LOWER}: proof", f"{UPPER}: proof", f"{UPPER}: edit"])
    small.must("its line alone is other", small.lines()[LOWER] == first[LOWER] and small.lines()[UPPER] != first[UPPER])
    small.must("of another toolchain's lines the one of a crate that is there stays", [it for it in small.all_lines() if it in OTHERS] == [OTHERS[0]])
    small.change(LOWER, "The smaller of", "What is smaller of")
    small.must("a comment of the lower one leaves the upper one judged", small.left_of(LOWER, False) and small.left_of(UPPER, True))


def modules_that_are_named(small):
    """What nothing names of the lower one leaves the line of the upper one, and what its source names does not."""
    small.forget()
    small.lands("an empty store once more", "4 passed, 0 failed", [f"{LOWER}: {it}" for it in ("proof", "edit")])
    small.tell_more(UNNAMED)
    small.must("a module that nothing names leaves the upper one judged", small.left_of(LOWER, False) and small.left_of(UPPER, True))
    small.tell_more(NAMED)
    small.must("a module that is named leaves neither", small.left_of(LOWER, False) and small.left_of(UPPER, False))


def code_below(small):
    """Another body of the lower one leaves the upper one's line, and another contract does not."""
    small.forget()
    small.lands("an empty store for other code", "4 passed, 0 failed", [f"{name}: {it}" for name in SOURCES for it in ("proof", "edit")])
    small.change(LOWER, *OTHER_BODY)
    small.must("another body leaves the upper one judged", small.left_of(LOWER, False) and small.left_of(UPPER, True))
    small.change(LOWER, *reversed(OTHER_BODY))
    small.change(LOWER, *OTHER_NAME)
    small.must("another contract leaves neither", small.left_of(LOWER, False) and small.left_of(UPPER, False))


def a_short_disk(small):
    """Where the disk is short what is kept lies packed in the store alone, and each step is made all the same."""
    small.forget()
    steps = [f"{name}: {it}" for name in SOURCES for it in ("proof", "edit")]
    small.lands("an empty store on a short disk", "4 passed, 0 failed", steps, program=LANDS_WITH_NO_ROOM)
    kept = [len([*top.rglob(name)]) for top, name in ((small.root, "incremental"), (small.store, "incremental.tar.gz"))]
    small.must(f"kept work lies in the store alone, and not in {kept[0]} and {kept[1]} places", kept == [0, len(SOURCES)])


def forged_lines(small):
    """The lower one is not proved, and the file says that it was judged: a landing that does not draw it believes that, and nothing else does."""
    small.change(LOWER, *BODIES[LOWER])
    small.forget()
    small.called(FORGES)
    small.must("lines are forged", sorted(small.lines()) == [LOWER, UPPER])
    small.lands("forged lines that are not drawn", "4 passed, 0 failed", [])
    output, errors, status = called(["rt", "ci"], small.root)
    said = (output + errors).decode(errors="replace")
    small.why += [] if status and "0 failed" not in said else ["the whole gate does not find it:", *said.splitlines()[-12:]]
    small.lands("forged lines that are drawn", "0 passed, 2 failed", [f"{LOWER}: proof"], drawn=2)
    small.must("the lines went", not small.lines())


def check(root):
    """A result for each of the calls above, on one repository that they change one after another."""
    found = []
    with tempfile.TemporaryDirectory(prefix="small-") as top:
        small = Small(root / "tools", pathlib.Path(os.path.realpath(top)))
        for call in (crates_that_are_named, lines_that_stand, modules_that_are_named, code_below, a_short_disk, forged_lines):
            small.why = []
            call(small)
            found.append(Result(call.__name__.replace("_", " "), not small.why, small.why))
    return found
