"""The grammar of docs/LANGUAGE.md as data, with what its limits count: nestings, operators, parameters, dimensions and labels.

It is written as there: braces mean any number, brackets mean optional, words of the language are quoted. What the page says beside the grammar is
written out: the levels of expressions, the words of a `spec`, that no declaration stands directly in a `switch`, and which expressions stand in
no other one (`value` and `own`).
"""

import re

GRAMMAR = """
source    = { function | global }
function  = function_spec name params block
params    = "(" [ "void" | param { "," param } ] ")"
param     = local_spec name [ "[" "]" ]
global    = global_spec name [ "[" number "]" | "=" literal ] ";"
literal   = [ "-" ] number | "true" | "false"

block     = "{" { stmt } "}"
stmt      = block | other
other     = decl ";" | plain
body      = block | lone
lone      = other
plain     = ";" | simple ";" | "break" ";" | "continue" ";" | "return" [ value ] ";"
          | ("if"|"cif") test body [ "else" body ]
          | ("while"|"cwhile") test body
          | ("do"|"cdo") body "while" test ";"
          | ("for"|"cfor") rounds body
          | ("foreach"|"foreach_tiled") dims body
          | "foreach_active" active body
          | "foreach_unique" distinct body
          | "switch" test labelled
rounds    = "(" [ decl | simple ] ";" [ value ] ";" [ simple ] ")"
dims      = "(" dim { "," dim } ")"
dim       = name "=" value "..." value
active    = "(" name ")"
distinct  = "(" name "in" value ")"
labelled  = "{" [ label { label | block | plain } ] "}"
label     = "case" [ "-" ] number ":" | "default" ":"
decl      = local_spec name [ "=" value ]
simple    = target assign value | target ("++"|"--") | ("++"|"--") target | name given
assign    = "=" | "+=" | "-=" | "*=" | "/=" | "%=" | "&=" | "|=" | "^=" | "<<=" | ">>="
target    = name [ place ]
place     = "[" value "]"
test      = "(" value ")"
given     = "(" [ own { "," own } ] ")"
own       = arg
value     = expr

expr      = level_1 [ choice ]
choice    = "?" expr ":" expr
unary     = ("-"|"+"|"!"|"~") operand
cast      = "(" cast_spec ")" operand
group     = "(" expr ")"
index     = "[" expr "]"
arguments = "(" [ arg { "," arg } ] ")"
arg       = expr | "&" name [ index ]
operand   = unary | cast | group | number | "true" | "false" | name | name index | name arguments
"""

# Binary operators, loosest first (`level_1`); those of one level group from the left.
OPERATORS = ("||", "&&", "|", "^", "&", "== !=", "< <= > >=", "<< >>", "+ -", "* / %")

# A nesting begins at the first token of such a part, and ends with it.
NESTINGS = {"params", "block", "lone", "rounds", "dims", "active", "distinct", "labelled", "place", "test", "given"}
NESTINGS |= {"choice", "unary", "cast", "group", "index", "arguments"}
MOST_NESTINGS = 64

# What is counted of an expression that stands in no other one: each such part counts, at its first token or at the token before that.
WHOLE = {"value", "own"}
COUNTED = {"unary": 0, "choice": 0, "cast_spec": -1, "index": -1, "arguments": -1} | {f"operator_{n}": 0 for n in range(1, 11)}
MOST_COUNTED = 256

# What else has a limit: the part, that in which it is counted, and how many there may be.
LIMITS = {"param": ("params", 8), "dim": ("dims", 3), "label": ("labelled", 256)}

# The words of a spec. Of these a spec has one type, one rate at most, and no word twice.
SIGNED = {"int", "int8", "int16", "int32", "int64"}
TYPES = SIGNED | {"void", "bool", "uint", "uint8", "uint16", "uint32", "uint64"}
RATES = {"uniform", "varying"}
SPECS = {"function_spec": {"export", "static", "inline"}, "global_spec": {"static", "const"}, "local_spec": {"const"}, "cast_spec": set()}
SPEC_WORDS = TYPES | RATES | {"unsigned"} | set().union(*SPECS.values())


def wholes(others):
    """Each set of words that is a spec, where these others may stand in it."""
    types = [{it} for it in TYPES] + [{"unsigned"}] + [{"unsigned", it} for it in SIGNED]
    found = [frozenset(it | rate) for it in types for rate in (set(), *({it} for it in RATES))]
    for word in others:
        found += [it | {word} for it in found]
    return set(found)


def rules_of_spec(name, others):
    """The rules of a spec: a part for each set of words that may have come, from which some spec goes on."""
    whole, rules = wholes(others), {}
    found = fronts = set(whole)
    while found:
        found = {it - {word} for it in found for word in it}
        fronts = fronts | found
    for front in sorted(fronts, key=sorted):
        rules[named(name, front)] = [(word, named(name, front | {word})) for word in sorted(SPEC_WORDS - front) if front | {word} in fronts]
        rules[named(name, front)] += [()] if front in whole else []
    return rules


def named(name, words):
    return " ".join((name, *sorted(words)))


class Rules:
    """Rules without braces and brackets: of each part the lists of parts and tokens that it may be."""

    def __init__(self):
        self.rules = {}
        for line in re.sub(r"\n +\|", " |", GRAMMAR).strip().split("\n"):
            if line:
                name, text = line.split("=", 1)
                self.name, self.words = name.strip(), re.findall(r'"[^"]+"|[\w]+|[][{}()|]', text)
                self.rules[self.name] = self.choices(None)
        for n, marks in enumerate(OPERATORS, 1):
            self.rules[f"operator_{n}"] = [(it,) for it in marks.split()]
            tighter = f"level_{n + 1}" if n < len(OPERATORS) else "operand"
            self.rules[f"level_{n}"] = [(tighter,), (f"level_{n}", f"operator_{n}", tighter)]
        for name, others in SPECS.items():
            self.rules |= rules_of_spec(name, others)

    def choices(self, closing):
        """The choices up to what closes them."""
        found, parts = [], []
        while self.words and self.words[0] != closing:
            word = self.words.pop(0)
            if word == "|":
                found, parts = [*found, tuple(parts)], []
            elif word in "[{(":
                parts.append(self.grouped(word))
            else:
                parts.append(word.strip('"'))
        self.words = self.words[1:]
        return [*found, tuple(parts)]

    def grouped(self, opening):
        """A part of its own for what stands in brackets, braces or parentheses."""
        name = f"{self.name} {len(self.words)}"
        inside = self.choices({"[": "]", "{": "}", "(": ")"}[opening])
        more = {"[": [()], "{": [()], "(": []}[opening]
        self.rules[name] = more + [(name, *it) if opening == "{" else it for it in inside]
        return name


RULES = Rules().rules
