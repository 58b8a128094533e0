"""The hints `#[inline(always)]` of the sources, which `rt try` drops and a proved build keeps, written into the code that a program is made from.

A function's name in the code is its path: crate, files, the type of its impl with the trait's name behind it, its own name, and at what types.
"""

import pathlib
import re

HINT = "#[inline(always)]"
OF_TYPES = r"(?:<(?:[^<>]|<[^<>]*>)*>)?"
IMPL = re.compile(rf"impl{OF_TYPES} (?:([\w:]+){OF_TYPES} for )?&?([\w:]+)")
FUNCTION = re.compile(r"\s*(?:pub(?:\([^)]*\))? )?(?:const )?fn (\w+)")
DEFINED = re.compile(r'define [^@]*@"([^"]+)"\(.*(?= #\d+ \{$)')


def asked_in(source, prefix):
    """The names of the functions of one file that ask to be inlined always."""
    owner, is_asked = "", False
    for line in source.splitlines():
        if found := IMPL.match(line):
            trait, of = (it.split("::")[-1] if it else "" for it in found.groups())
            owner = f"{of}{trait}::"
        elif line.startswith("}"):
            owner = ""
        elif line.strip() == HINT:
            is_asked = True
        elif is_asked and (found := FUNCTION.match(line)):
            yield f"{prefix}::{owner if line.startswith(' ') else ''}{found[1]}"
            is_asked = False


def asked(crates):
    """The names of the functions of these crates that ask to be inlined always."""
    names = set()
    for crate in crates:
        top = pathlib.Path(crate.folder, "src")
        for path in top.rglob("*.rt"):
            parts = [it for it in path.relative_to(top).with_suffix("").parts if it not in ("lib", "main")]
            names.update(asked_in(path.read_text(encoding="utf-8"), "::".join([crate.name, *parts])))
    return names


def hinted(text, crates):
    """LLVM's text with the hints of these crates."""
    names = asked(crates)

    def with_hint(found):
        return found[0] + " alwaysinline" if found[1].split("::<")[0] in names else found[0]

    return re.sub(DEFINED.pattern, with_hint, text, flags=re.MULTILINE)
