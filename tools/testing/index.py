"""The page of all crates, crates/README.md: under the headings of crates.txt a line for each crate, the first sentence of its README."""

import difflib
import re

from .tried import Result

PAGE = "crates/README.md"
HEAD = """# Crates

Each crate with the first sentence of its README, in the order of `crates.txt`, which is that of the way of a program. [ARCHITECTURE.md](../docs/ARCHITECTURE.md) has that way with definition, code and law of each pass. `tools/crates_index --write` writes this page.
"""
SENTENCE = re.compile(r"(.+?[.])(?=\s|$)", re.S)


def first_sentence(crate):
    """The first sentence behind the heading of a crate's README, in one line."""
    readme = crate.folder / "README.md"
    text = readme.read_text(encoding="utf-8") if readme.is_file() else ""
    _, _, body = text.partition("\n")
    found = SENTENCE.match(body.strip())
    return " ".join(found[1].split()) if found else ""


def page(listed):
    lines, heading = [HEAD], None
    for crate in listed:
        if crate.heading != heading:
            heading = crate.heading
            lines += ["" if len(lines) > 1 else None, f"## {(heading or '').lstrip('# ')}", ""]
        lines.append(f"- [{crate.name}]({crate.name}/README.md): {first_sentence(crate)}")
    return "\n".join(line for line in lines if line is not None) + "\n"


def differences(root, listed):
    """What is to change in the page, as lines of a difference."""
    file = root / PAGE
    there = file.read_text(encoding="utf-8") if file.is_file() else ""
    return list(difflib.unified_diff(there.splitlines(), page(listed).splitlines(), PAGE, "what the crates say", lineterm="", n=0))


def check(root, listed):
    """One result: the page is what the crates say of themselves."""
    why = differences(root, listed)
    if why:
        why.append("`tools/crates_index --write` writes it anew")
    without = [f"{it.name}: its README has no first sentence" for it in listed if not first_sentence(it)]
    return [Result("the page of all crates", not why and not without, without + why)]
