"""A trial of the judges of a landing: a small crate must be proved, and of its edits those alone count that a clause refuses.

It fails where a toolchain says or does something else than `steps` and `edits` read of it.
"""

import os
import sys
import tempfile

import steps
from edits import batches, tried
from store import sum_of
from toolchain import rt

NAME = "trial_of_judges"
JUDGES = ("edits.py", "selftest.py", "steps.py", "toolchain.py")
SOURCE = """\
//! What the judges of a landing are tried on.
#![tactic(auto)]

ghost use Rattle.std.specs.Prelude.{◌≡◌, ◌≤◌};

/// A number that is below neither.
pub fn above(a: u32, b: u32) -> u32
    ensures first { a ≤ result }
    ensures second { b ≤ result }
{
    if a < b { b } else { a }
}

/// A number that is above neither.
pub fn below(a: u32, b: u32) -> u32
    ensures first { result ≤ a }
    ensures second { result ≤ b }
{
    if a < b { a } else { b }
}

/// The number itself.
pub fn same_number(number: u32) -> u32
    ensures { result ≡ number }
{
    number
}

/// The value itself.
pub fn same_value(value: u32) -> u32
    ensures { result ≡ value }
{
    value
}

/// The two halves.
pub fn halves(s: &mut [u8]) -> (&mut [u8], &mut [u8]) {
    let half = s.len() / 2;
    s.split_at_mut(half)
}
"""
ANSWERED = ("same_number", "same_value")
ANSWER = """\
use Rattle.std.proofs.Common.{{refl}}
use Rattle.{}.proofs.{}.Goals as goal

pub returns : goal.returns
returns c = refl
"""
# Of each edit what stands in the source, what comes in its place, whether it counts, and what is said of it.
EDITS = {
    "wrong": ("if a < b { b } else { a }", "a", True, "refused: src/lib.rt:7: it is not proved that what the function ensures holds"),
    "right": ("if a < b { a } else { b }", "if a <= b { a } else { b }", False, "NOT REFUSED"),
    "right_but_for_its_answer": ("    number", "    number.min(number)", False, "without the answer to returns: NOT REFUSED"),
    "wrong_at_its_answer": ("    value", "    value.min(0)", True, "refused, without the answer to returns: src/lib.rt:30: it is not proved"),
    "not_covered": ("    s.split_at_mut(half)", "    s.split_at_mut(s.len() / 2)", False, "the borrow checker does not cover it: src/lib.rt:39"),
}


def write(path, text):
    os.makedirs(os.path.dirname(path), exist_ok=True)
    with open(path, "w", encoding="utf-8") as it:
        it.write(text)


def trial_at(root):
    """Writes the trial's repository and returns its crate."""
    write(f"{root}/crates.txt", f"{NAME}:\n")
    folder = f"{root}/crates/{NAME}"
    write(f"{folder}/src/lib.rt", SOURCE)
    for it in ANSWERED:
        write(f"{folder}/proofs/{it}/Answers.antt", ANSWER.format(NAME, it))
    for name, (old, new, _, _) in EDITS.items():
        write(f"{folder}/must-fail/{name}.edit", f"file: src/lib.rt\nold: {old}\nnew: {new}\n")
    os.makedirs(f"{folder}/out")
    return rt.crates_of(root)[0]


def faults():
    """Returns what a trial did otherwise than it must."""
    with tempfile.TemporaryDirectory(prefix="trial-") as root, tempfile.TemporaryFile("a+", errors="replace") as out:
        crate = trial_at(root)
        crate.out = out
        why = steps.why_refused(crate, [crate])
        if why or not steps.library(crate, 1):
            out.seek(0)
            return [f"the crate is not proved: {why or out.read()[-3000:]}"]
        found = []
        for batch in batches(crate, rt.edits_of(crate)[0]):
            found += tried(crate, batch, steps.JOBS, f"{crate.folder}/out/{steps.KEPT}")
    named = {os.path.basename(edit).removesuffix(".edit"): (well, said) for edit, well, said in found}
    missing = [f"{it}: not tried" for it in EDITS if it not in named]
    return missing + [f"{it}: {said}" for it, (well, said) in named.items() if well != EDITS[it][2] or EDITS[it][3] not in said]


def passes(store, tools, out=sys.stdout):
    """Whether the trial does what it must: it is made once for the toolchain and the files that judge."""
    digest = sum_of((rt.kit_sum(),), tools, JUDGES)
    if "trial" in store.record("self-test", digest):
        return True
    found = faults()
    for it in found:
        print(f"the judges of a landing, tried on a small crate, do not what they must: {it}", file=out)
    if not found:
        store.note("self-test", digest, "trial", 0)
    return not found
