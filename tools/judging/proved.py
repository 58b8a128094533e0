"""proved.txt: a line for each crate of which all steps have passed, with what it was then, how it was judged and by which prover and libraries.

A landing takes a crate whose line says what it would say now as judged, without the store. Some of them it judges all the same, from nothing:
which ones follows from the digest of the commit.
"""

import functools
import hashlib
import os
import subprocess

from reading import has_code, sum_of_read
from store import RUN, sum_of
from toolchain import rt, rtlib

FILE = "proved.txt"
HEAD = "# What was judged, by the digests of all that was read: written by `make prove`, and not by hand (docs/CONTRIBUTING.md)\n"
# Earlier judges, by their digests, and those that let the very same pass: what the first judged counts as judged by the second. (One of edits
# checked an edit once more that was refused already, with those that were not; one of proofs gave each check one job.)
SAME_VERDICTS = {"19791043": "77493d8c", "6bf36d72": "e5c29e85"}
# What of the toolchain proofs rest on beside its libraries, and what the runs of programs and tests rest on besides.
PROVER = ("bin/rattle",)
COMPILERS = ("bin/rattle-link", "toolchain/bin/clang", "toolchain/bin/rattle-x64", "toolchain/lib")
# How many crates a landing judges all the same, the most processor seconds that these take, and about what takes how many.
DRAWN, MOST = 3, 1_200
OF_CRATE, OF_LINE, OF_EDIT, OF_LINE_OF_TESTS = 45, 0.12, 15, 0.4


@functools.cache
def sum_of_prover():
    """Returns a digest of what a proof rests on of the toolchain: the sum of its logic, its prover, and its libraries, by the sums that it lists of them.

    Its name is not in it: two kits with one prover and the same libraries prove the same.
    """
    logic = rtlib.text_of(f"{rt.KIT}/KIT-ID").partition("logic ")[2].strip()
    lists = (rtlib.text_of(f"{rt.KIT}/{it}") for it in os.listdir(rt.KIT) if it.startswith("WHAT"))
    libraries = sorted({line for it in lists for line in it.splitlines() if " rlibs/" in line})
    return sum_of((logic, libraries), rt.KIT, PROVER)


@functools.cache
def sum_of_compilers():
    """Returns a digest of what makes programs of proved code, and tests."""
    return sum_of((), rt.KIT, COMPILERS)


def toolchain():
    """Returns the name by which the lines of one prover with its libraries are told from those of others."""
    return sum_of_prover()[:8]


def digests_of(crates):
    """Returns a digest of all that each crate's proof and tests rest on, which is the same on every machine.

    It is of what a check of the crate reads of the repository's files, its whole line of crates.txt and those of the crates below it, HANDLES, and
    of the toolchain the prover and the libraries; the compilers too where code of the crate is run.
    """
    kinds = {it.name: repr((it.name, it.said, it.is_program, it.of_kit)) for it in crates}
    below = {}
    for crate in crates:
        below[crate.name] = {lower.name: lower for dep in crate.deps for lower in (dep, *below[dep.name].values())}

    def digest(crate):
        lower = below[crate.name]
        judges = (sum_of_prover(), *[sum_of_compilers()] * has_code(crate))
        read = (judges, rt.Crate.allowed, kinds[crate.name], sorted(kinds[it] for it in lower), sum_of_read(crate, lower.values()))
        return hashlib.sha256(repr(read).encode()).hexdigest()

    return {it.name: digest(it) for it in crates}


def line(crate, digest, steps, judges):
    """Returns the line of a crate: a digest with its edits and what its program is run on, the steps, and digests of what judges them."""
    whole = sum_of((digest,), crate.folder, ("must-fail", *RUN))[:16]
    return f"{crate.name} {whole} {', '.join(steps)} by {' '.join(it[:8] for it in judges)} with {toolchain()}\n"


def lines(root):
    """Returns the lines of the file, those of all toolchains."""
    text = rtlib.text_of(f"{root}/{FILE}") or ""
    return {it for it in text.splitlines(True) if it.strip() and not it.startswith("#")}


def told(root):
    """Returns the lines of the file by what each would say with the judges of today."""
    return {" ".join(SAME_VERDICTS.get(word, word) for word in it.split(" ")): it for it in lines(root)}


def is_noted(record, step):
    """Whether a record of the store has a step, by the judge of today or by an earlier one whose verdicts count."""

    def as_today(noted):
        kind, _, judge, *more = noted.split(" ")
        return kind, SAME_VERDICTS.get(judge[:8], judge[:8]), more

    return as_today(step) in map(as_today, record)


def named_in(line):
    """Returns the crate and the toolchain of a line."""
    words = line.split()
    return words[0], words[-1]


def write(root, found):
    """Writes the file anew, where it says something else, and returns the names whose lines are new or other, and those whose lines went.

    The lines of other toolchains stay: none of this one can say whether they still fit. Those of crates that are gone go.
    """
    before = lines(root)
    ours = {it for it in before if named_in(it)[1] == toolchain()}
    others = {it for it in before - ours if os.path.isdir(f"{root}/crates/{named_in(it)[0]}")}
    if others | {*found.values()} != before:
        with open(f"{root}/{FILE}.new", "w", encoding="utf-8") as it:
            it.write(HEAD + "".join(sorted({*others, *found.values()}, key=named_in)))
        os.replace(f"{root}/{FILE}.new", f"{root}/{FILE}")
    return [it for it in sorted(found) if found[it] not in ours], sorted({named_in(it)[0] for it in ours} - {*found})


def seed(root):
    """Returns the digest of the commit, or of the file where there is none."""
    ran = subprocess.run(["git", "rev-parse", "HEAD"], cwd=root, capture_output=True, text=True)
    return sum_of((), root, (FILE,)) if ran.returncode else ran.stdout.strip()


@functools.cache
def cost_of_proof(crate):
    """Returns about how many processor seconds the proof of a crate takes."""
    return OF_CRATE + OF_LINE * crate.count(b"\n")


def cost_of_rest(crate):
    """Returns about how many processor seconds its tests and edits take."""
    return OF_EDIT * len(rt.edits_of(crate)[0]) + OF_LINE_OF_TESTS * crate.count(b"\n") * crate.has_tests()


def drawn(crates, seed):
    """Returns the names of the crates that a landing judges all the same, of these, in the order that a seed gives them.

    A crate is passed over where it costs too much, with those below it, whose libraries have to be built.
    """
    found, built, left = [], set(), MOST
    for crate in sorted(crates, key=lambda it: hashlib.sha256(f"{seed} {it.name}".encode()).digest()):
        if len(found) == DRAWN:
            break
        more = [it for it in [*crate.below(), crate] if it.name not in built]
        seconds = sum(cost_of_proof(it) for it in more) + cost_of_rest(crate)
        if seconds <= left:
            left -= seconds
            built |= {it.name for it in more}
            found.append(crate.name)
    return found
