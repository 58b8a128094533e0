"""The viewer of a page: crates/page_viewer has the text of its page.html, cut into parts.

`tools/page_viewer --write` writes the parts. The page's policy names the checksums of its script and of its styles. It tells why a step faults as
`explain` does.
"""

import base64
import difflib
import hashlib
import pathlib
import re

from .explained import entries, literal
from .tried import Result

PAGE = "crates/page_viewer/page.html"
CRATE = "crates/page_viewer/src"
RECORD = "RECORD"
STYLE = re.compile(r"<style>(.*?)</style>", re.S)
SCRIPT = re.compile(r"<script>(.*?)</script>", re.S)
MOST = 2_500  # bytes of a part
LONGEST = 160  # bytes of a line
WIDEST = 100  # bytes of a line of code


def checksum(text):
    return "sha256-" + base64.b64encode(hashlib.sha256(text.encode()).digest()).decode()


def with_checksums(text):
    """The page with what its policy allows."""
    text = text.replace("SCRIPT-HASH", checksum(SCRIPT.search(text)[1]))
    return text.replace("STYLE-HASH", checksum(STYLE.search(text)[1]))


def front_and_rest(root):
    """What stands before the record and what stands behind it."""
    text = (root / PAGE).read_text(encoding="utf-8")
    front, rest = with_checksums(text).split(f">{RECORD}<")
    return f"{front}>", f"<{rest}"


def cut(text):
    """Parts of a text, each of whole lines, and none but the first beginning with a blank."""
    parts, own = [], ""
    for line in text.splitlines(keepends=True):
        if own and len(own) + len(line) > MOST and not line[0].isspace():
            parts.append(own)
            own = ""
        own += line
    return [*parts, own]


def module(name, about, parts):
    """A file with a list of parts."""
    functions = [f"fn {name}_{number}() -> &'static [u8] {{\n    {literal(text)}\n}}\n" for number, text in enumerate(parts)]
    calls = [f"{name}_{number}()" for number in range(len(parts))]
    short = f"    [{', '.join(calls)}]"
    array = short if len(short) <= WIDEST else "\n".join(["    [", *(f"        {call}," for call in calls), "    ]"])
    head = f"//! {about}, as `tools/page_viewer` writes it from page.html.\n"
    listed = f"/// {about}, in parts.\npub fn {name}_parts() -> [&'static [u8]; {len(parts)}] {{\n{array}\n}}\n"
    return "\n".join([head, listed, *functions])


def files(root):
    front, rest = front_and_rest(root)
    return {
        f"{CRATE}/front.rt": module("front", "What stands before the record", cut(front)),
        f"{CRATE}/rest.rt": module("rest", "What stands behind the record", cut(rest)),
    }


def faults_told(root):
    """What the page says of faults that `explain` does not say so, without its marks of code."""
    text = (root / PAGE).read_text(encoding="utf-8")
    there = dict(re.findall(r'^  (F\d): "(.*)",$', text, re.M))
    wanted = {number: " ".join(lines.split("\n\n")[0].replace("`", "").split()) for number, _, lines in entries(root) if number[0] == "F"}
    return [f"{it}: {there.get(it)}, and {wanted.get(it)} is wanted" for it in sorted({*there, *wanted}) if there.get(it) != wanted.get(it)]


def check(root):
    """A result for each file: it is what would be written; and one for the page's lines."""
    results = []
    for path, text in files(root).items():
        file = pathlib.Path(root, path)
        there = file.read_text(encoding="utf-8") if file.is_file() else ""
        why = list(difflib.unified_diff(there.splitlines(), text.splitlines(), path, PAGE, lineterm="", n=0))
        results.append(Result(path, not why, why and [*why[:20], "`tools/page_viewer --write` writes it anew"]))
    lines = (root / PAGE).read_text(encoding="utf-8").splitlines()
    long = [f"line {at} has {len(line)} characters" for at, line in enumerate(lines, 1) if len(line) > LONGEST]
    faults = faults_told(root)
    return [*results, Result(PAGE, not long, long), Result(f"faults in {PAGE}", not faults, faults)]
