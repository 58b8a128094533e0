"""Every source of examples/ by VS Code's grammar: the class of each token is that of docs/LANGUAGE.md, and blanks have none.

The words, marks and numbers are those of the page, and the names of functions those of the reader of sources in tools/, which knows neither
the grammar nor the program.
"""

import re

from meaning.source import Parser

from . import textmate
from .editor_words import of_page
from .editors import GRAMMAR, SCOPES
from .tried import Result

PAGE = "docs/LANGUAGE.md"


# The parts of a text, by "Tokens" of the page; what is none of them is wrong, byte by byte.
PARTS = r"(?P<blank>[ \t\r\n]+)|(?P<comment>//[^\n]*|/\*.*?\*/)|(?P<number>[0-9]\w*)|(?P<word>[A-Za-z_]\w*)|(?P<mark>{marks})|(?P<wrong>.)"
NUMBER = re.compile(r"(0[xX][0-9a-fA-F]+|0[bB][01]+|0|[1-9][0-9]*)([uUlL]*)", re.A)


class Language:
    """The words and marks of the language, as the page tells them."""

    def __init__(self, root):
        self.kinds = classes(root)
        marks = sorted(of_page(root)[1], key=len, reverse=True)
        self.parts = re.compile(PARTS.format(marks="|".join(map(re.escape, marks))), re.S | re.A)

    def tokens(self, text):
        """The tokens and comments of a text, and its blanks: where each begins and ends, and its class."""
        functions = functions_of(text)
        for part in self.parts.finditer(text):
            kind = part.lastgroup
            if kind == "word":
                is_called = part.start() in functions if functions is not None else text[part.end() :].lstrip()[:1] == "("
                kind = self.of_word(part[0], is_called)
            elif kind == "number" and not is_number(part[0]):
                kind = "wrong"
            yield part.start(), part.end(), kind

    def of_word(self, word, is_called):
        kind = self.kinds.get(word, "name")
        if kind in ("name", "lane", "library") and is_called:
            return "library" if kind == "library" else "function"
        return "name" if kind == "library" else kind


def is_number(text):
    """At most one u and at most two l stand behind the digits."""
    whole = NUMBER.fullmatch(text)
    return bool(whole) and whole[2].lower().count("u") <= 1 and whole[2].lower().count("l") <= 2


def classes(root):
    """The class of each word: each type has a spelling, two words are rates, and so on."""
    text = (root / PAGE).read_text(encoding="utf-8")
    reserved, _, library = of_page(root)
    rows = re.search(r"^\| Type \| Spellings \|\n\|[-|]+\|\n(.*?)\n\n", text, re.M | re.S)[1].splitlines()
    types = {word for row in rows for spelling in re.findall(r"`([^`]*)`", row) for word in spelling.split()} | {"void"}
    types |= {first.strip() for row in rows if "the same" in row for first in row.split("|")[1].split(",")}
    types |= {f"u{it}" for it in types if it.startswith("int")}
    rates = set(re.search(r"at most one of `(\w+)` and `(\w+)`", text).groups())
    modifiers = {*re.search(r"`(\w+)`, `(\w+)` and `(\w+)` stand only on functions", text).groups(), re.search(r"`(\w+)` only on variables", text)[1]}
    lanes = set(re.search(r"`(\w+)` is the lane, .*?; `(\w+)` is the number of lanes", text).groups())
    truths = set(re.search(r'^literal = .*"(\w+)" \| "(\w+)"$', text, re.M).groups())
    rounds = {it for it in reserved if it.startswith("foreach")} | {"in"}
    control = reserved - types - rates - modifiers - truths - rounds
    named = {"type": types, "rate": rates, "modifier": modifiers, "truth": truths, "foreach": rounds, "control": control, "lane": lanes, "library": library}
    return {word: kind for kind, words in named.items() for word in words}


# ---- names of functions


class Functions(Parser):
    """A reader that keeps which of its tokens are names of functions, in definitions and in calls."""

    def __init__(self, text):
        super().__init__(text)
        self.found = []
        self.items()

    def parameters(self):
        self.found.append(self.tokens[self.i - 1])
        return super().parameters()

    def primary(self):
        token, node = self.peek(), super().primary()
        if node.kind == "call":
            self.found.append(token)
        return node


def functions_of(text):
    """Where the names of functions begin in a source, or None where it is none of the language: a source of ISPC that is still to be ported."""
    try:
        found = Functions(text).found
    except (AssertionError, StopIteration, AttributeError):
        return None
    starts = [0, *(it.end() for it in re.finditer("\n", text))]
    return {starts[it.line - 1] + it.column - 1 for it in found}


# ---- by the grammar


def wrong(grammar, text, language):
    """What is wrong with the names that a grammar gives the characters of a source: those of a token are of one kind, and blanks have none."""
    scopes = grammar.scopes(text)
    for start, end, kind in language.tokens(text):
        outer = {it[0] if it else None for it in scopes[start:end]}
        is_right = outer == {None} if kind == "blank" else len(outer) == 1 and str(*outer).startswith(SCOPES.get(kind, "invalid.illegal."))
        if not is_right:
            yield f"line {text.count(chr(10), 0, start) + 1}: {text[start:end]!r} is a {kind}, and {sorted(map(str, outer))}"


def check(root):
    """A result for each source, and for grammars that lack a word."""
    given, language = (root / GRAMMAR).read_text(encoding="utf-8"), Language(root)
    grammar, texts = textmate.Grammar(given), {it.relative_to(root): it.read_text(encoding="utf-8") for it in sorted((root / "examples").rglob("*.ispc"))}
    results = []
    for name, text in texts.items():
        why = list(wrong(grammar, text, language))
        results.append(Result(f"{name} by the grammar", not why, why))
    return [*results, words_lost(given, list(texts.values()), language), read_sources(texts)]


def read_sources(texts):
    """All sources are read, but for those that are still to be ported."""
    why = [f"{name} is not read" for name, text in texts.items() if functions_of(text) is None and name.parts[1] != "ports"]
    return Result("sources by the reader of tools/", not why, why)


def words_lost(given, texts, language):
    """A grammar that lacks a word, which some source has, gives that word another class, and this is found."""
    why, having = [], {}
    for text in texts:
        for start, end, kind in language.tokens(text):
            if language.kinds.get(text[start:end]) == kind:
                having.setdefault(text[start:end], text)
    for word, text in having.items():
        turned = re.sub(rf"(\(\?:|\|){word}(\||\))", lambda it: it[1] + "no_word" + it[2], given)
        is_found = turned != given and any(wrong(textmate.Grammar(turned), text, language))
        why += [] if is_found else [f"the grammar without {word} is not found"]
    why += [] if len(having) > len(language.kinds) // 2 else [f"only {len(having)} of {len(language.kinds)} words stand in sources"]
    return Result("grammars that lack a word are found", not why, why)
