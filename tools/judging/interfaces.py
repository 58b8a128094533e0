"""What of a source below it the check of a library reads: names, types and contracts, and no code.

A library's proof rests on the contracts of the functions that it calls. So these are left out: bodies of functions, and whole functions that no
other crate can name; what a source imports for its bodies alone, and modules that no other crate can name; comments, and hints on inlining, which
are for compilers alone. A text that is not as the formatter lays it out stays as it is, and so does what may be code of other crates: macros,
constant functions, and bodies within traits.
"""

import re

FUNCTION = re.compile(r"(\s*)(pub )?(?:pub\(\w+\) )?(?:unsafe )?fn \w+")
# What begins the methods of a trait: as it is declared, and as a type has it.
DECLARED = re.compile(r"(\s*)(?:pub(?:\(\w+\))? )?(?:unsafe )?trait ")
OWN = re.compile(r"(\s*)(?:unsafe )?impl\b(?!.*\bfor\b).*\{$")
# What a source imports, in one line or several: the path, and the names.
IMPORT = re.compile(r"^use ((?:\w+::)*)(?:(\w+(?: as \w+)?)|\{([^{}]*)\});$", re.M)
MODULE = re.compile(r"\s*mod \w+;")
COMMENT = re.compile(r"\s*//")
ATTRIBUTE = re.compile(r"\s*#\[")
HINT = re.compile(r"\s*#\[inline(\(\w+\))?\]")


def interface_of(text, are_cited):
    """Returns the lines of a source that a check of a crate above it reads; all functions' contracts where definitions or lemmas cite some."""
    if "macro_rules" in text:
        return text.splitlines()
    lines = without_functions(text.splitlines(), are_cited)
    if not any(has_open_text(it) for it in lines):
        lines = [it for it in lines if not COMMENT.match(it) and not HINT.fullmatch(it)]
    return without_imports([it for it in lines if it.strip() and not MODULE.fullmatch(it)])


def has_open_text(line):
    """Whether a line may begin or end a text that goes over several lines."""
    return len(re.findall(r'(?<!\\)"', line.replace("'\"'", ""))) % 2 == 1


def without_functions(lines, are_cited):
    """Returns the lines without the bodies of functions, and without those functions that no other crate can name."""
    found, at, trait, own = [], 0, None, None
    while at < len(lines):
        line = lines[at]
        trait, own = still(trait, line, DECLARED), still(own, line, OWN)
        begun = FUNCTION.match(line) if trait is None else None
        opens, last = body_from(lines, at, begun[1]) if begun else (None, None)
        if last is None:
            found.append(line)
            at += 1
            continue
        # (a method of a trait has no `pub`, and stands deeper than what is named by its module)
        is_named = begun[2] or are_cited or (begun[1] and own is None)
        found = found + lines[at : opens + 1] if is_named else without_front(found)
        at = last + 1
    return found


def still(indent, line, begins):
    """Returns the indent of the block that a line is in, which begins with such a line and ends with a brace at the same indent."""
    begun = begins.match(line)
    if begun:
        return begun[1]
    return None if indent is not None and line == f"{indent}}}" else indent


def body_from(lines, at, indent):
    """Returns where the body of the function of a line opens and ends, or nothing twice where that is not plain."""
    for opens in range(at, len(lines)):
        line = lines[opens]
        is_outer = opens == at or line.startswith((f"{indent})", f"{indent}where")) or line == f"{indent}{{"
        if is_outer and line.endswith("{"):
            last = next((i for i in range(opens + 1, len(lines)) if lines[i].strip() and not lines[i].startswith(f"{indent} ")), None)
            return (opens, last) if last is not None and lines[last] == f"{indent}}}" else (None, None)
        ends = line.endswith((";", "}")) and (opens == at or not line.startswith(f"{indent} "))
        if ends or not line.strip():
            break
    return None, None


def without_front(lines):
    """Returns the lines without the comments and attributes at their end, which are those of what follows."""
    count = len(lines)
    while count and (COMMENT.match(lines[count - 1]) or ATTRIBUTE.match(lines[count - 1])):
        count -= 1
    return lines[:count]


def without_imports(lines):
    """Returns the lines without the names that they import and do not say again."""
    text = "\n".join(lines)
    said = {*re.findall(r"\w+", IMPORT.sub("", text))}

    def kept(found):
        names = [it.strip() for it in (found[2] or found[3]).split(",")]
        names = [it for it in names if it and it.rpartition(" ")[2] in said]
        return f"use {found[1]}{{{', '.join(names)}}};" if names else ""

    return [it for it in IMPORT.sub(kept, text).splitlines() if it.strip()]
