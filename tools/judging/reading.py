"""What a check of a crate reads of the repository, as a digest.

That is its own files; of the sources of all crates below it what a crate above can name, or where it makes a program of its own or its tests,
all of them; and of the modules of definitions and lemmas below it those that are named: by its files, by these sources, or by such a module. A
module that nothing names is not loaded, so a changed one leaves the verdict as it is.
"""

import functools
import hashlib
import os
import re

from interfaces import interface_of

# A module as definitions and proofs name it, and as an attribute of a function does.
NAMED = re.compile(r"Rattle\.(\w+)\.((?:specs|proofs)(?:\.[\w+]+)+)")
IN_ATTRIBUTE = re.compile(r"\b(\w+)::((?:specs|proofs)(?:::\w+)+)")
# A line of a module that only names those within it.
NAMES = re.compile(r"(?:pub )?mod (\w+)")
ENDS = (".rt", ".antt")
# A function's contract or theorem, as a module of definitions or lemmas names it.
CITED = re.compile(r"\bspecs\.contracts\b|\.Met\b")
# The files of one function's proof, which no other crate can name.
OF_PROOFS = ("Answers.antt", "Invariants.antt", "Proof.antt")


@functools.cache
def text_of(path):
    with open(path, encoding="utf-8") as it:
        return it.read()


@functools.cache
def files_in(folder):
    """Returns the files of sources, definitions and proofs of a folder, in order."""
    found = [f"{at}/{name}" for at, _, names in os.walk(folder) for name in names if name.endswith(ENDS)]
    return sorted(found)


@functools.cache
def module_of(crates, crate, words):
    """Returns the file of a module that a name begins with, of this crate in the folder of crates; none where the check writes it from sources."""
    words = words.replace("::", ".").split(".")
    paths = (f"{crates}/{crate}/{'/'.join(words[:count])}.antt" for count in range(len(words), 1, -1))
    return next((it for it in paths if os.path.isfile(it)), None)


@functools.cache
def are_cited(folder):
    """Whether definitions or lemmas of a crate name a contract or a theorem of a function."""
    files = [it for part in ("specs", "proofs") for it in files_in(f"{folder}/{part}") if os.path.basename(it) not in OF_PROOFS]
    return any(CITED.search(text_of(it)) for it in files)


@functools.cache
def interface(path):
    """Returns what a crate above can name of a source."""
    return "\n".join(interface_of(text_of(path), are_cited(path.rpartition("/src/")[0])))


@functools.cache
def named_by(path, text):
    """Returns the modules of the repository that a text of a file names."""
    crates = path.partition("/crates/")[0] + "/crates"
    named = NAMED.findall(text) + (IN_ATTRIBUTE.findall(text) if path.endswith(".rt") else [])
    return frozenset({module_of(crates, *it) for it in named} - {None})


def reached(texts):
    """Returns these texts of files by their paths, with all modules that they name, and that those name."""
    seen, left = {}, [*texts.items()]
    while left:
        path, text = left.pop()
        if path not in seen:
            seen[path] = text
            left += [(it, text_of(it)) for it in named_by(path, text)]
    return seen


def lists_above(module):
    """Returns what the modules above a module say of those on the way to it: the line that lists it, and all of a module that has more than lists."""
    found = []
    folder, name = os.path.split(module)
    while os.path.basename(folder) not in ("", "crates"):
        above = f"{folder}/Lib.antt" if os.path.basename(folder) in ("specs", "proofs") else f"{folder}.antt"
        if os.path.isfile(above) and above != module:
            lines = text_of(above).splitlines()
            is_list = all(NAMES.fullmatch(it) or not it.strip() for it in lines)
            word = os.path.splitext(name)[0]
            found += [it for it in lines if not is_list or NAMES.fullmatch(it) and NAMES.fullmatch(it)[1] == word]
        folder, name = os.path.split(folder)
    return found


@functools.cache
def sum_of_text(path, text):
    """Returns a digest of a text with the name of its file, and of the lists that lead to it where it is a module."""
    named = path.partition("/crates/")[2]
    return hashlib.sha256(repr((named, text, lists_above(path) if path.endswith(".antt") else [])).encode()).hexdigest()


def has_code(crate):
    """Whether code of a crate is run: it is a program, or has tests."""
    return crate.is_program or crate.has_tests()


def sum_of_read(crate, below):
    """Returns a digest of what a check of a crate reads of the repository's files, where these crates are below it."""
    texts = {it: text_of(it) for part in ("src", "specs", "proofs") for it in files_in(f"{crate.folder}/{part}")}
    is_run = has_code(crate)
    sources = {it: text_of(it) if is_run else interface(it) for lower in below for it in files_in(f"{lower.folder}/src")}
    read = reached(texts | {it: text for it, text in sources.items() if text})
    return hashlib.sha256(repr(sorted(sum_of_text(*it) for it in read.items())).encode()).hexdigest()
