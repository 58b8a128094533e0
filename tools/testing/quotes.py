"""The page docs/LIBRARY.md: what it quotes of Rattle, and the answers that it shows, stand in the file that it names, each in one piece."""

import re

from .tried import Result

PAGE = "docs/LIBRARY.md"
FILE = re.compile(r"`(\w+/src/[\w/]+\.rt)`")
BLOCK = re.compile(r"^```(rust|text)\n(.*?)^```$", re.M | re.S)


def check(root):
    """One result: the quoted file is there, and has each block."""
    text = (root / PAGE).read_text(encoding="utf-8") if (root / PAGE).is_file() else ""
    named, blocks = FILE.search(text), BLOCK.findall(text)
    file = root / "crates" / named[1] if named else None
    if not (file and file.is_file() and blocks):
        return [Result(f"{PAGE}: what it quotes", False, ["it names no file that is there, or quotes nothing of it"])]
    there = file.read_text(encoding="utf-8")
    # Answers stand there as a text of bytes.
    wanted = [it if kind == "rust" else it.replace("\n", "\\n") for kind, it in blocks]
    why = [f"{named[1]} has not: {it[:60]!r} .." for it in wanted if it not in there]
    return [Result(f"{PAGE}: what it quotes", not why, why)]
