"""Which of S3, S4 and S13 a source is told, and where: as tools/meaning/fronts.py says it of the tokens, which has the grammar as data.

The sources are those of examples/, random programs, sources that are made of the grammar by chance, specs of all words, and such as stand near a
limit; and all of these damaged by chance, in one to ten places. A source without such a refusal has none, whatever else is told of it.
"""

import collections
import pathlib
import random
import re
import subprocess
import tempfile

from meaning import fronts
from meaning.grammar import COUNTED, LIMITS, NESTINGS, OPERATORS, RULES, SPEC_WORDS
from tree_of_source import tokens

from .calls import go_on, side_by_side
from .editor_words import of_page
from .random_programs import Written
from .tried import SECONDS, Result

SEED = 3
IN_A_LINE = 9  # tokens
# Sources of each kind, and how many damaged ones there are of each.
RANDOM_PROGRAMS, OF_PROGRAMS, MADE, OF_MADE, SPECS, NESTED, SUMS, LISTS, OF_LIMITS = 12, 16, 40, 3, 400, 80, 20, 16, 4
LEAST = {"S3": 1500, "S4": 100, "S13": 100, None: 500}

NAMES, NUMBERS = ("x", "a", "f", "programIndex"), ("0", "1", "42u", "0x1F")
WORDS = sorted({it for rules in RULES.values() for rule in rules for it in rule if it not in RULES} - {"name", "number"})
REFUSED = re.compile(r"\d+:\d+: (S3|S4|S13) ")

# What stands in one another: `@` for a statement, `#` for an expression.
STATEMENTS = ("{ @ }", "if ( 1 ) @", "if ( 1 ) ; else @", "cwhile ( x ) @", "do @ while ( 1 ) ;", "for ( ; ; ) @", "foreach_tiled ( i = 0 ... 3 ) @")
STATEMENTS += ("foreach_active ( i ) @", "foreach_unique ( v in x ) @", "switch ( x ) { default : @ }", "if ( 1 ) if ( 2 ) ; else @")
PLAIN = ("x = # ;", "x += # ;", "f ( # ) ;", "f ( 1 , # , # ) ;", "f ( & a [ # ] ) ;", "a [ # ] = 1 ;", "int y = # ;", "if ( # ) ;", "return # ;")
PLAIN += ("for ( int i = # ; # ; i ++ ) ;", "foreach ( i = # ... # ) ;", "foreach_unique ( v in # ) ;", "switch ( # ) { }", "{ }", "foreach_active ( i ) ;")
EXPRESSIONS = ("( # )", "- #", "! #", "( uniform int ) #", "1 ? # : 2", "1 ? 2 : #", "1 + #", "# * 2", "a [ # ]", "f ( # )", "f ( 1 , & a [ # ] )")
# What counts in an expression; `%` stands for a binary operator.
COUNTING = ("1 %", "- 1 %", "( int ) 1 %", "a [ 1 ] %", "f ( x ) %", "( 1 ? 2 : 3 ) %", "f ( & a [ 1 % 2 ] , 3 ) %", "( x % 1 ) %")


def kind(word):
    """What a word is for the grammar."""
    return word if word in WORDS else "number" if word[0].isdigit() else "name"


def laid(words):
    """A text of these tokens, and the place of each and of the end."""
    lines = [words[at : at + IN_A_LINE] for at in range(0, len(words), IN_A_LINE)]
    places = [(number, 1 + sum(len(it) + 1 for it in line[:at])) for number, line in enumerate(lines, 1) for at in range(len(line))]
    return "".join(" ".join(line) + "\n" for line in lines), [*places, (len(lines) + 1, 1)]


def damaged(chance, words, first=0):
    """The tokens with one damage or several, all of them behind so many; now and then no more than a front of them."""
    words = list(words)
    for _ in range(chance.choice((1, 1, 1, 1, 3, 10))):
        at = chance.randrange(min(first, len(words)), len(words) + 1)
        other = chance.choice((chance.choice(WORDS), chance.choice(NAMES + NUMBERS), chance.choice(words or ["x"])))
        one, two = words[at : at + 1], words[at : at + 2]
        old, new = chance.choice(((one, []), (one, [other]), ([], [other]), ([], one), (two, two[::-1]), (two, [])))
        words[at : at + len(old)] = new
    return words[: chance.randrange(min(first, len(words)), len(words) + 1)] if chance.random() < 0.04 else words


def heights():
    """Of each part a number that is above those of what it is made of by one of its rules."""
    found = {it: 0 for it in (*WORDS, "name", "number")}
    while len(found) < len(WORDS) + 2 + len(RULES):
        for part in (it for it in RULES if it not in found):
            known = [max((found[it] for it in rule), default=0) for rule in RULES[part] if found.keys() >= set(rule)]
            found |= {part: 1 + min(known)} if known else {}
    return found


HEIGHTS = heights()


def made(chance, part, left, used):
    """Tokens of a part that is made by chance, by rules that were not used yet where there are some; of so many parts in one another, or by what
    ends soon."""
    if part not in RULES:
        return [chance.choice({"name": NAMES, "number": NUMBERS}.get(part, (part,)))]
    rules = RULES[part]
    if left < 0:
        rules = [min(rules, key=lambda rule: max((HEIGHTS[it] for it in rule), default=0))]
    rules = [it for it in rules if (part, it) not in used] or rules
    rule = rules[0] if part.startswith(("level_", "expr ")) and chance.random() < 0.85 else chance.choice(rules)
    used.add((part, rule))
    return [it for sub in rule for it in made(chance, sub, left - 1, used)]


def nested(chance):
    """A function with about as many nestings as there may be."""
    outer = chance.randrange(chance.choice((1, 67)))
    text = "@"
    for _ in range(outer):
        text = text.replace("@", chance.choice(STATEMENTS))
    text = text.replace("@", chance.choice(PLAIN) if chance.random() < 0.7 else ";")
    for _ in range(chance.randrange(max(61 - outer, 0), 76 - outer)):
        at = text.rfind("#")
        text = text[:at] + chance.choice(EXPRESSIONS) + text[at + 1 :] if at >= 0 else text
    return f"void f ( ) {{ {text.replace('#', 'x')} }}".split()


def counted(chance):
    """A function with an expression in which about as much is counted as may be."""
    text = " ".join(chance.choice(COUNTING) for _ in range(chance.randrange(112, 124)))
    marks = " ".join(OPERATORS).split()
    text = re.sub("%", lambda _: chance.choice(marks), f"{text} 1")
    return f"void f ( ) {{ {chance.choice(PLAIN[:-2]).replace('#', text, 1).replace('#', '1')} }}".split()


def lists(chance):
    """A function with about as many parameters, dimensions or labels as there may be."""
    params = " , ".join(f"{' '.join(chance.sample(('const', 'uniform', 'int'), 3))} p" for _ in range(chance.randrange(7, 11)))
    dims = " , ".join("i = 0 ... 2" for _ in range(chance.randrange(2, 6)))
    labels = " ".join(chance.choice(("case 1 : ;", "case - 2 :", "default :")) for _ in range(chance.randrange(254, 260)))
    bodies = (f"foreach ( {dims} ) ;", f"switch ( x ) {{ {labels} }}", "")
    return f"void f ( {params if chance.random() < 0.5 else ''} ) {{ {chance.choice(bodies)} }}".split()


def at_the_limits():
    """For each form that nests, and for all that counts in an expression: just within the limit, at it and past it, and past both limits; and each word
    of a spec past one."""
    statements = [it.replace("@", ";").replace("#", "x") for it in STATEMENTS + PLAIN]
    found = [f"void f ( ) {{ {'{ ' * deep} {it} {'} ' * deep} }}" for it in statements for deep in range(60, 65)]
    found += [f"void f ( ) {{ x = {'( ' * deep} {it.replace('#', 'x')} {') ' * deep} ; }}" for it in EXPRESSIONS for deep in range(61, 65)]
    counting = [*COUNTING, *(f"1 {it}" for it in " ".join(OPERATORS).split())]
    sums = [f"{'1 + ' * count}{it.replace('%', '+')} 1" for it in counting for count in range(253, 257)]
    found += [f"void f ( ) {{ x = {it} ; }}" for it in sums]
    found += [f"void f ( ) {{ {plain.replace('#', f'{sum_of} 1')} }}" for plain in PLAIN[:-2] for sum_of in ("1 + " * 255, "1 + " * 256, "1 + " * 257)]
    both = [(f"{'1 + ' * count}{'( ' * deep}", ") " * deep) for count in range(254, 257) for deep in range(61, 64)]
    found += [f"void f ( ) {{ x = {before}{it.replace('#', 'x')} {behind}; }}" for it in EXPRESSIONS for before, behind in both]
    found += [f"void f ( {'int a , ' * count}int b ) {{ }}" for count in (7, 8)]
    found += [f"void f ( ) {{ foreach ( {'i = 0 ... 2 , ' * count}j = 1 ... 3 ) ; }}" for count in (2, 3)]
    found += [f"void f ( ) {{ switch ( x ) {{ {'case 1 : ' * count}default : ; }} }}" for count in (255, 256)]
    found += [f"void f ( {'int a , ' * 8}{word} b ) {{ }}" for word in SPEC_WORDS]
    found += [f"void f ( ) {{ {'do ' * 64}{word} x ;" for word in SPEC_WORDS]
    found += [f"void f ( ) {{ x = {'1 + ' * 256}( {word} ) 1 ; }}" for word in SPEC_WORDS]
    return sorted(it.split() for it in found)


def spec(chance):
    """Where a spec may stand, words of specs that are drawn by chance."""
    words = " ".join(chance.choice(sorted(SPEC_WORDS)) for _ in range(chance.randrange(1, 6)))
    places = ("@ f ( ) { }", "@ x ;", "@ a [ 4 ] ;", "@ x = - 1 ;", "void f ( @ x ) { }", "void f ( int x , @ a [ ] ) { }", "void f ( @ ) { }")
    places += ("void f ( ) { @ x = 1 ; }", "void f ( ) { x = ( @ ) 1 ; }", "void f ( ) { for ( @ i = 0 ; ; ) ; }", "void f ( ) { if ( 1 ) @ x ; }")
    return chance.choice(places).replace("@", words).split()


def text_of(file):
    """The tokens of a source, none of one that has other bytes."""
    try:
        return [it.text for it in tokens(file.read_text(encoding="utf-8")) if it.kind != "end"]
    except StopIteration:
        return []


def of_the_grammar(chance):
    """Sources that are made of the grammar, until each of its rules has been used, those of specs left out."""
    wanted = {(part, rule) for part, rules in RULES.items() if "spec" not in part for rule in rules}
    found, used = [], set()
    while len(found) < MADE or not wanted <= used:
        found.append(made(chance, "source", 70, used))
    return found


def families(root, chance):
    """Kinds of sources, each with its sources as lists of tokens, how many damaged ones there are of each, and which part of each stays whole."""
    written = [Written(random.Random(f"{SEED} {number}")).lines for number in range(RANDOM_PROGRAMS)]
    return {
        "examples": ([text_of(it) for it in sorted(root.glob("examples/**/*.ispc"))], OF_PROGRAMS, 0),
        "random programs": ([[it.text for it in tokens("\n".join(lines))][:-1] for lines in written], OF_PROGRAMS, 0),
        "sources of the grammar": (of_the_grammar(chance), OF_MADE, 0),
        "specs": ([spec(chance) for _ in range(SPECS)], 1, 0),
        "nestings": ([nested(chance) for _ in range(NESTED)], OF_LIMITS, 0.4),
        "expressions": ([counted(chance) for _ in range(SUMS)], OF_LIMITS, 0.9),
        "lists": ([lists(chance) for _ in range(LISTS)], OF_LIMITS, 0.9),
        "at the limits": (at_the_limits(), 0, 0),
    }


class Given:
    """Tokens with the refusal that they are to have, and what was read for that: from where they differ from others, if some are given."""

    def __init__(self, words, front=None):
        self.words, shared = words, 0
        if front is not None:
            same = next((at for at, (one, other) in enumerate(zip(words, front.words)) if one != other), min(len(words), len(front.words)))
            shared = min(same, front.refusal.at) if front.refusal else same
        self.reading = fronts.Reading(front.reading.moments[: shared + 1] if front else None)
        self.refusal = fronts.refusal([kind(it) for it in words], self.reading)

    def wanted(self, places):
        return None if self.refusal is None else "%d:%d: %s " % (*places[self.refusal.at], self.refusal.number)

    def differs(self, program, folder):
        """Why the program says something else, if it does."""
        go_on()
        text, places = laid(self.words)
        file = pathlib.Path(tempfile.mkstemp(suffix=".ispc", dir=folder)[1])
        file.write_text(text)
        ended = subprocess.run([program, file.name], cwd=folder, env={}, input=b"", capture_output=True, timeout=float(SECONDS))
        file.unlink()
        said, wanted = ended.stderr.decode(), self.wanted(places)
        is_right = said.startswith(wanted) if wanted else not REFUSED.match(said)
        return [] if is_right else [f"{said!r}, and {wanted!r} is wanted, of", *text.splitlines()]


def given(sources, count, first, chance):
    """The sources of a kind, and damaged ones of each. What two have in common is read once."""
    before = None
    for words in sources:
        before = Given(words, before)
        yield before
        for _ in range(count):
            yield Given(damaged(chance, words, int(first * len(words))), before)


def covered(root, all_of_them):
    """That each place of the grammar at which a token stands was read, each word of each spec among them, and that each limit was passed. Its words and
    marks are those of the page."""
    at_token = {(fronts.PART[it], it) for it, wanted in enumerate(fronts.NEXT) if wanted is not None and wanted not in RULES}
    read = {(fronts.PART[state], state - 1) for one in all_of_them for moment in one.reading.moments[1:] for state, _ in moment.scanned}
    by_word = lambda found: {(part.split()[0], fronts.NEXT[it]) if "spec" in part else it for part, it in found}
    why = [f"not read: {it if isinstance(it, tuple) else (fronts.PART[it], fronts.NEXT[it])}" for it in by_word(at_token) - by_word(read)]
    reserved, marks, _ = of_page(root)
    why += [f"of the page or of the grammar alone: {it}" for it in {*reserved, *marks} ^ set(WORDS)]
    passed = {it.refusal.part for it in all_of_them if it.refusal}
    # (the parameters are never too deep, nor are the braces of a `switch` behind its value; a cast's parenthesis is told first as that of a cast)
    why += [f"not passed: {it}" for it in (NESTINGS | COUNTED.keys() | LIMITS.keys()) - {"params", "labelled", "group"} - passed]
    numbers = collections.Counter(it.refusal and it.refusal.number for it in all_of_them)
    why += [f"{number} is told {numbers[number]} times" for number in LEAST if numbers[number] < LEAST[number]]
    return Result(f"each part of the grammar and each limit, in {len(all_of_them)} sources", not why, why)


def results(root, program):
    """A result for each kind of sources, and that all that may be told is told."""
    chance, found, all_of_them = random.Random(SEED), [], []
    with tempfile.TemporaryDirectory(prefix="fronts-") as folder:
        for name, (sources, count, first) in families(root, chance).items():
            texts = list(given(sources, count, first, chance))
            why = [it for it in side_by_side(lambda it: it.differs(program, folder), texts) if it]
            found.append(Result(f"which of S3, S4 and S13, and where: {name}", not why, [f"{len(why)} of {len(texts)}", *why[0]] if why else []))
            all_of_them += texts
    return [*found, covered(root, all_of_them)]


def tasks(root, program):
    return [lambda: results(root, program)]
