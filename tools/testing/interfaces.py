"""What a line of proved.txt reads of the sources below a library (tools/judging/interfaces.py): all that another crate can name, and no code.

Small sources show it, and each source of the repository is looked at: nothing that is public is lost.
"""

import re
import sys

from .tried import Result

# Each source, what is left of it, and what is left where definitions cite its functions.
USED = """\
//! A room.
use crate::lower::{Kept, helper};
use std::fmt::Debug as Shown;

/// Seven.
pub const SEVEN: u8 = 7;

/// What is asked.
pub struct Asked {
    /// The number.
    pub number: Kept,
}

impl Asked {
    /// The number.
    #[inline(always)]
    pub fn number(&self) -> u8
        ensures { result ≡ self.now.number }
    {
        // (it is small)
        helper(self.number)
    }

    /// One more.
    fn more(&self) -> u8 {
        self.number + 1
    }
}
"""
LEFT = """\
use crate::lower::{Kept};
pub const SEVEN: u8 = 7;
pub struct Asked {
    pub number: Kept,
}
impl Asked {
    pub fn number(&self) -> u8
        ensures { result ≡ self.now.number }
    {
}
"""
CITED = LEFT.replace("    {\n", "    {\n    fn more(&self) -> u8 {\n", 1)
OF_TRAITS = """\
mod inner;
pub mod outer;

pub trait Steps {
    fn first(&self) -> u8;

    fn second(&self) -> u8 {
        2
    }
}

impl<T> Steps for Vec<T>
where
    T: Copy,
{
    #[inline]
    fn first(&self) -> u8
        ensures { result ≡ 1 }
    {
        if self.is_empty() {
            return 1;
        }

        1
    }
}

#[inline]
#[tactic(auto)]
fn hidden(
    number: u8,
) -> u8 {
    number
}

pub(crate) fn inside() {}

pub const fn three() -> u8 {
    3
}

pub fn four(number: u8) -> u8
    requires {
        number ≡ 4
    }
{
    number
}
"""
LEFT_OF_TRAITS = """\
pub mod outer;
pub trait Steps {
    fn first(&self) -> u8;
    fn second(&self) -> u8 {
        2
    }
}
impl<T> Steps for Vec<T>
where
    T: Copy,
{
    fn first(&self) -> u8
        ensures { result ≡ 1 }
    {
}
pub(crate) fn inside() {}
pub const fn three() -> u8 {
    3
}
pub fn four(number: u8) -> u8
    requires {
        number ≡ 4
    }
{
"""
# Where a text goes over lines, comments may be a part of it; and what a macro writes may be code of others.
OF_LINES = 'pub const PAGE: &str = "\n// no comment\n";\n\n// A comment.\npub fn five() -> u8 {\n    5\n}\n'
LEFT_OF_LINES = 'pub const PAGE: &str = "\n// no comment\n";\n// A comment.\npub fn five() -> u8 {\n'
OF_MACROS = "macro_rules! made {\n    () => {\n        fn six() -> u8 {\n            6\n        }\n    };\n}\n"
CASES = (
    ("what is public", USED, LEFT, False),
    ("functions that definitions cite", USED, CITED, True),
    ("traits and contracts", OF_TRAITS, LEFT_OF_TRAITS, False),
    ("texts over several lines", OF_LINES, LEFT_OF_LINES, False),
    ("macros", OF_MACROS, OF_MACROS, False),
)
PUBLIC = re.compile(r"\s*(?:pub |impl\b|ghost )")


def check(root):
    sys.path.insert(0, str(root / "tools/judging"))
    try:
        from interfaces import interface_of
    finally:
        sys.path.pop(0)
    found = []
    for name, text, left, are_cited in CASES:
        came = interface_of(text, are_cited)
        why = [] if came == left.splitlines() else ["it reads:", *came]
        found.append(Result(f"what a crate above reads: {name}", not why, why))
    lost = []
    for path in sorted(root.glob("crates/*/src/**/*.rt")):
        lines = path.read_text(encoding="utf-8").splitlines()
        kept = {*interface_of("\n".join(lines), False)}
        lost += [f"{path.relative_to(root)}:{number}: {it}" for number, it in enumerate(lines, 1) if PUBLIC.match(it) and it not in kept and not is_import(it)]
    return [*found, Result("what a crate above reads: nothing public is lost", not lost, lost[:20])]


def is_import(line):
    """Whether a line belongs to an item that a source only has for itself, or may say in other words."""
    return re.match(r"\s*ghost use|\s*pub\(", line) is not None
