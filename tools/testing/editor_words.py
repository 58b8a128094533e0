"""The words of the language by their kinds, from the sources of the lexer, the parser and the names, and the tokens of a text by them."""

import re

MARKS = "crates/ispc_lexer/src/marks.rt"
SPECS = "crates/ispc_parser_words/src/words.rt"
TRUTHS = "crates/ispc_parser_words/src/operators.rt"
LIBRARY = "crates/ispc_names_scopes/src/library.rt"
LANES = "crates/ispc_names_declarations/src/declarations.rt"
PAGE = "docs/LANGUAGE.md"

# The kinds of words; a name of a function or a variable is none of these.
KINDS = ("control", "foreach", "rate", "modifier", "type", "truth", "lane", "library")


def body_of(root, path, function):
    """The body of a function that stands at the margin."""
    text = (root / path).read_text(encoding="utf-8")
    return re.search(rf"^(?:pub )?fn {function}\(.*?^\{{\n(.*?)^\}}", text, re.M | re.S)[1]


def marks_in(text):
    return set(re.findall(r"Mark::(\w+)", text))


def spellings(root):
    """The text of each mark and reserved word, by its name in the source."""
    return dict(re.findall(r'Mark::(\w+) => b"([^"]+)"', body_of(root, MARKS, "text_of")))


def is_word(text):
    return text[0].isalpha()


def marks(root):
    return {it for it in spellings(root).values() if not is_word(it)}


def words(root):
    """The words of each kind."""
    spelled = spellings(root)
    types = marks_in(body_of(root, SPECS, "is_type_word"))
    rates = set(re.findall(r"Mark::(\w+) => return with_rate", (root / SPECS).read_text(encoding="utf-8")))
    truths = marks_in(body_of(root, TRUTHS, "truth_of"))
    modifiers = marks_in(body_of(root, SPECS, "is_spec_word")) - types - rates
    found = {"type": types, "rate": rates, "truth": truths, "modifier": modifiers}
    found = {kind: {spelled[name] for name in names} for kind, names in found.items()}
    left = {it for it in spelled.values() if is_word(it)} - set().union(*found.values())
    rounds = {it for it in left if it.startswith("foreach") or it == "in"}
    library = set(re.findall(r'b"(\w+)"', (root / LIBRARY).read_text(encoding="utf-8")))
    lanes = set(re.findall(r'b"(\w+)"', (root / LANES).read_text(encoding="utf-8")))
    return {**found, "foreach": rounds, "control": left - rounds, "library": library, "lane": lanes}


def of_page(root):
    """The reserved words, the marks and the library's names as the page of the language has them."""
    text = (root / PAGE).read_text(encoding="utf-8")
    listed = {what: set(re.search(rf"\*\*{what}\*\*: `(.*)`", text)[1].split()) for what in ("Reserved words", "Marks")}
    rows = re.search(r"^\| Call \| Result \| Meaning \|\n(.*?)\n\n", text, re.M | re.S)[1].splitlines()[1:]
    library = {name for row in rows for name in called(re.findall(r"`([^`(]*)", row.split(" | ")[0])[::2])}
    return listed["Reserved words"], listed["Marks"], library


def called(row):
    """The names of a row of the library; `_and` behind `exclusive_scan_add` stands for `exclusive_scan_and`."""
    return {row[0].rpartition("_")[0] + it if it.startswith("_") else it for it in row}


def tokens(root, text):
    """The tokens and comments of a text that has no fault of spelling, each with where it begins and ends, and its kind."""
    kinds = {word: kind for kind, of_kind in words(root).items() for word in of_kind}
    longest = "|".join(re.escape(it) for it in sorted(marks(root), key=len, reverse=True))
    found = []
    for part in re.finditer(rf"(?P<comment>//[^\n]*|/\*.*?\*/)|(?P<number>[0-9]\w*)|(?P<name>[A-Za-z_]\w*)|(?P<mark>{longest})|\s+", text, re.S):
        kind = part.lastgroup
        if kind == "name":
            kind = kind_of_name(kinds.get(part[0]), text[part.end() :].lstrip()[:1] == "(")
        if kind:
            found.append((part.start(), part.end(), kind))
    return found


def kind_of_name(kind, is_called):
    """The kind of a name. Variables and functions are apart: the library's names are those of calls, and those of the lanes are none."""
    if kind in (None, "lane", "library"):
        return {(True, "library"): "library", (False, "lane"): "lane"}.get((is_called, kind), "function" if is_called else "name")
    return kind
