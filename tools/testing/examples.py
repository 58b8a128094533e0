"""The programs of examples/: NAME.ispc with the commands NAME.commands, and NAME.args and NAME.input if there, writes NAME.transcript.

README.md beside them lists them, and that of the repository shows one at the prompt. docs/HUNTS.md shows three programs with their sessions. The
kernels below them are another module's (kernels.py).
"""

import re

from .tried import Result, Run

PAGE = "README.md"

# What README.md shows at the prompt is this session, whose source is an example, from the first line that is typed on.
SHOWN = "sessions/prompts/readme.prompt"
# A page of programs, each with its session there: these sessions.
HUNTS, HUNTED = "docs/HUNTS.md", "sessions/prompts/hunts.prompt"
HUNT = re.compile(r"^`(\w+\.ispc)`:\n\n```c\n(.*?)^```\n\n```\n(.*?)^```$", re.M | re.S)
NAMED, BLOCK = re.compile(r"`examples/(\w+)\.ispc`"), re.compile(r"^```\n(\(rinddecade\) .*?)^```$", re.M | re.S)


def names(root):
    return sorted(it.stem for it in (root / "examples").glob("*.ispc"))


def arguments(root, name):
    file = root / f"examples/{name}.args"
    return file.read_text(encoding="utf-8").splitlines() if file.is_file() else []


def input_of(root, name):
    """The input of an example, if it has one."""
    file = root / f"examples/{name}.input"
    return file.read_bytes() if file.is_file() else None


def with_input(name, text):
    """The words and the data that give a run an input, if there is one."""
    file = f"{name}.input"
    return ([], {}) if text is None else (["--input", file], {file: text})


def script(root, name, lines):
    """A source and command lines, as standard input has them."""
    return (root / f"examples/{name}.ispc").read_bytes() + b"%%\n" + lines


def check(root):
    """A result for each example: its files are there and the page lists it; and each file is the page or of an example."""
    results, page = [], root / "examples" / PAGE
    told = page.read_text(encoding="utf-8") if page.is_file() else ""
    for name in names(root):
        why = [f"{name}.{it} is missing" for it in ("commands", "transcript") if not (root / f"examples/{name}.{it}").is_file()]
        why += [] if f"`{name}.ispc`" in told else [f"{PAGE} does not list it"]
        results.append(Result(name, not why, why))
    for file in sorted((root / "examples").iterdir()):
        if file.is_file() and file.name != PAGE and file.stem not in names(root):
            results.append(Result(file.name, False, ["it belongs to no NAME.ispc"]))
    why, of_hunts = not_as_stored(root), hunts_not_as_stored(root)
    return [*results, Result("the prompt in README.md", not why, why), Result(f"the prompt in {HUNTS}", not of_hunts, of_hunts)]


def not_as_stored(root):
    """What README.md shows at the prompt that is not as the stored session has it."""
    page = (root / PAGE).read_text(encoding="utf-8")
    block = BLOCK.search(page)
    if block is None:
        return [f"{PAGE} shows no session at the prompt"]
    name = NAMED.findall(page[: block.start()])[-1]
    head, _, said = (root / SHOWN).read_text(encoding="utf-8").partition("%%\n")
    typed = said[said.index("\n> ") + 1 :].replace("FILE", f"{name}.ispc")
    stored = re.sub(r"^> ", "(rinddecade) ", typed, flags=re.M)
    why = [] if head.partition("\n")[2] == (root / f"examples/{name}.ispc").read_text(encoding="utf-8") else [f"{SHOWN} has another source"]
    return why + ([] if block[1] == stored else [f"{SHOWN} has it otherwise"])


def hunts_not_as_stored(root):
    """Which programs of the page are not those that are stored, with the same sessions and in the same order."""
    page, stored = (root / HUNTS).read_text(encoding="utf-8"), (root / HUNTED).read_text(encoding="utf-8")
    told = [source + re.sub(r"^\(rinddecade\) ", "> ", said, flags=re.M).replace(file, "FILE") for file, source, said in HUNT.findall(page)]
    kept = []
    for session in re.split(r"^=== .*\n", stored, flags=re.M)[1:]:
        source, _, said = session.rstrip("\n").partition("%%\n")
        kept.append(f"{source}{said[said.index(chr(10) + '> ') + 1 :]}\n")
    return [] if told == kept else [f"{HUNTED} has them otherwise"]


def runs(root):
    """Each example as a script, and as a file with the commands on standard input."""
    made = []
    for name in names(root):
        files = [root / f"examples/{name}.{it}" for it in ("commands", "transcript")]
        if not all(it.is_file() for it in files):
            continue
        commands, transcript = (it.read_bytes() for it in files)
        input_words, data = with_input(name, input_of(root, name))
        words = arguments(root, name) + input_words
        made.append(Run(f"example {name}", script(root, name, commands), words, transcript, b"", data=data))
        source = {f"{name}.ispc": root / f"examples/{name}.ispc"}
        made.append(Run(f"example {name}, from a file", commands, [f"{name}.ispc", *words], transcript, b"", data=source | data))
    return made
