"""Reads a source and writes its tree as a term of gang_model's `ParsedSource`.

It reads accepted and refused sources alike, as long as the grammar admits them. What it writes is checked by eye against
the source, which stands above the term as a comment.
"""

import re
from dataclasses import dataclass

RESERVED = set(
    """export static inline const uniform varying unsigned void bool int int8 int16 int32 int64 uint uint8 uint16 uint32
    uint64 true false if else cif while cwhile do cdo for cfor break continue return foreach foreach_tiled foreach_active
    foreach_unique in switch case default""".split()
)
MARKS = sorted(
    """( ) { } [ ] , ; ? : + - * / % & | ^ ~ ! < > << >> <= >= == != && || = += -= *= /= %= &= |= ^= <<= >>= ++ -- ...""".split(),
    key=len,
    reverse=True,
)
TYPES = {
    "bool": "Bool",
    "int": "Int32",
    "int8": "Int8",
    "int16": "Int16",
    "int32": "Int32",
    "int64": "Int64",
    "uint": "Uint32",
    "uint8": "Uint8",
    "uint16": "Uint16",
    "uint32": "Uint32",
    "uint64": "Uint64",
}
UNSIGNED = {"Int8": "Uint8", "Int16": "Uint16", "Int32": "Uint32", "Int64": "Uint64", None: "Uint32"}
SPEC_WORDS = set(TYPES) | {"export", "static", "inline", "const", "uniform", "varying", "unsigned", "void"}
LEVELS = [["||"], ["&&"], ["|"], ["^"], ["&"], ["==", "!="], ["<", "<=", ">", ">="], ["<<", ">>"], ["+", "-"], ["*", "/", "%"]]
OPERATIONS = {
    "|": "Or",
    "^": "Xor",
    "&": "And",
    "==": "Equal",
    "!=": "NotEqual",
    "<": "Less",
    "<=": "LessEqual",
    ">": "Greater",
    ">=": "GreaterEqual",
    "<<": "Shl",
    ">>": "Shr",
    "+": "Add",
    "-": "Sub",
    "*": "Mul",
    "/": "Div",
    "%": "Rem",
}
UNARY = {"-": "Negate", "+": "Plus", "!": "Not", "~": "Complement"}


@dataclass
class Token:
    kind: str
    text: str
    line: int
    column: int
    value: int = 0
    is_unsigned: bool = False
    is_long: bool = False


def tokens(source):
    found, i, line, column = [], 0, 1, 1
    while i < len(source):
        rest = source[i:]
        if m := re.match(r"[ \t\r\n]+|//[^\n]*|/\*.*?\*/", rest, re.S):
            text = m.group()
        elif m := re.match(r"[A-Za-z_]\w*", rest):
            text = m.group()
            found.append(Token("word" if text in RESERVED else "name", text, line, column))
        elif m := re.match(r"(0[xX][0-9a-fA-F]+|0[bB][01]+|[0-9]+)([uUlL]*)", rest):
            text, suffix = m.group(), m[2].lower()
            found.append(Token("number", text, line, column, int(m[1], 0), "u" in suffix, "l" in suffix))
        else:
            text = next(mark for mark in MARKS if rest.startswith(mark))
            found.append(Token("mark", text, line, column))
        for c in text:
            line, column = (line + 1, 1) if c == "\n" else (line, column + 1)
        i += len(text)
    return found + [Token("end", "", line, column)]


def truth(b):
    return "true" if b else "false"


def name(text):
    return f'(codes "{text}")'


def option(term):
    return "None" if term is None else f"(Some {term})"


def items(terms):
    return "(" + "".join(f"{term} ∷ " for term in terms) + "[])"


def nested(constructor, terms, last):
    for term in reversed(terms):
        last = f"({constructor} {term} {last})"
    return last


class Reader:
    def __init__(self, source):
        self.tokens = tokens(source)
        self.i = 0

    def peek(self, ahead=0):
        return self.tokens[min(self.i + ahead, len(self.tokens) - 1)]

    def take(self):
        self.i += 1
        return self.tokens[self.i - 1]

    def at(self, *texts):
        return self.peek().kind in ("mark", "word") and self.peek().text in texts

    def expect(self, text):
        assert self.at(text), (text, self.peek())
        return self.take()

    def skip(self, text):
        if self.at(text):
            self.take()
            return True
        return False

    def place(self):
        return f"(at {self.peek().line} {self.peek().column})"

    def begins_spec(self, ahead=0):
        return self.peek(ahead).kind == "word" and self.peek(ahead).text in SPEC_WORDS

    def spec(self):
        words = []
        while self.begins_spec():
            words.append(self.take().text)
        rate = "Uniform" if "uniform" in words else "Varying" if "varying" in words else None
        type_name = next((TYPES[w] for w in words if w in TYPES), None)
        if "unsigned" in words:
            type_name = UNSIGNED[type_name]
        return words, option(rate), option(None if type_name is None else f"t.{type_name}")

    def spec_term(self):
        words, rate, type_name = self.spec()
        flags = " ".join(truth(w in words) for w in ("export", "static", "inline", "const"))
        return f"(spec {flags} {rate} {type_name})"

    # expressions

    def expression(self):
        test = self.level(0)
        if not self.skip("?"):
            return test
        first = self.expression()
        self.expect(":")
        return f"(ParsedChoice {test} {first} {self.expression()})"

    def level(self, n):
        if n == len(LEVELS):
            return self.unary()
        left = self.level(n + 1)
        while self.peek().kind == "mark" and self.peek().text in LEVELS[n]:
            mark = self.take().text
            infix = {"&&": "AndAlso", "||": "OrElse"}.get(mark) or f"(Op op.{OPERATIONS[mark]})"
            left = f"(ParsedBinary {infix} {left} {self.level(n + 1)})"
        return left

    def unary(self):
        place = self.place()
        if self.at(*UNARY):
            operator = UNARY[self.take().text]
            return f"(ParsedUnary {place} unary.{operator} {self.unary()})"
        if self.at("(") and self.begins_spec(1):
            self.take()
            _, rate, type_name = self.spec()
            self.expect(")")
            return f"(ParsedCast {place} {rate} {type_name} {self.unary()})"
        return self.primary()

    def primary(self):
        place, token = self.place(), self.take()
        if token.kind == "number":
            return f"(ParsedNumber {place} {token.value} {truth(token.is_unsigned)} {truth(token.is_long)})"
        if token.text in ("true", "false"):
            return f"(ParsedBool {place} {token.text})"
        if token.text == "(":
            inner = self.expression()
            self.expect(")")
            return f"(ParsedParen {place} {inner})"
        assert token.kind == "name", token
        if self.at("["):
            return f"(ParsedIndex {place} {name(token.text)} {self.index()})"
        if self.at("("):
            return f"(ParsedCall {place} {name(token.text)} {self.arguments()})"
        return f"(ParsedName {place} {name(token.text)})"

    def index(self):
        self.expect("[")
        term = self.expression()
        self.expect("]")
        return term

    def arguments(self):
        self.expect("(")
        found = []
        while not self.at(")"):
            if found:
                self.expect(",")
            found.append(self.argument())
        self.take()
        term = "ParsedEnd"
        for argument in reversed(found):
            term = f"({argument} {term})"
        return term

    def argument(self):
        if not self.skip("&"):
            return f"ParsedValue {self.expression()}"
        place, token = self.place(), self.take()
        if self.at("["):
            return f"ParsedPartFrom {place} {name(token.text)} {self.index()}"
        return f"ParsedPart {place} {name(token.text)}"

    # statements

    def target(self):
        place, token = self.place(), self.take()
        assert token.kind == "name", token
        index = self.index() if self.at("[") else None
        return f"(target {place} {name(token.text)} {option(index)})"

    def simple(self):
        place = self.place()
        if self.at("++", "--"):
            operation = "Add" if self.take().text == "++" else "Sub"
            return f"(ParsedIncrement {place} {self.target()} op.{operation})"
        if self.peek().kind == "name" and self.peek(1).text == "(":
            function = self.take().text
            return f"(ParsedDoCall {place} {name(function)} {self.arguments()})"
        target = self.target()
        mark = self.take().text
        if mark in ("++", "--"):
            return f"(ParsedIncrement {place} {target} op.{'Add' if mark == '++' else 'Sub'})"
        if mark == "=":
            return f"(ParsedAssign {place} {target} {self.expression()})"
        return f"(ParsedChange {place} {target} op.{OPERATIONS[mark[:-1]]} {self.expression()})"

    def declaration(self):
        place, spec = self.place(), self.spec_term()
        at, declared = self.place(), self.take().text
        value = self.expression() if self.skip("=") else None
        return f"(ParsedDeclare {place} {spec} {at} {name(declared)} {option(value)})"

    def until(self, *ends):
        found = []
        while not self.at(*ends):
            found.append(self.statement())
        return found

    def block(self):
        self.expect("{")
        return nested("ParsedNext", [f"{s}\n     " for s in self.until("}")], "ParsedLast")

    def condition(self):
        self.expect("(")
        term = self.expression()
        self.expect(")")
        return term

    def statement(self):
        place = self.place()
        word = self.peek().text if self.peek().kind in ("word", "mark") else None
        if word == "{":
            body = self.block()
            self.expect("}")
            return f"(ParsedBlock {body})"
        if self.skip(";"):
            return "ParsedEmpty"
        if self.begins_spec():
            term = self.declaration()
            self.expect(";")
            return term
        form = {
            "break": self.jump,
            "continue": self.jump,
            "return": self.leave,
            "if": self.branch,
            "cif": self.branch,
            "while": self.while_loop,
            "cwhile": self.while_loop,
            "do": self.do_loop,
            "cdo": self.do_loop,
            "for": self.for_loop,
            "cfor": self.for_loop,
            "switch": self.switch,
            "foreach": self.foreach,
            "foreach_tiled": self.foreach,
            "foreach_active": self.foreach_active,
            "foreach_unique": self.foreach_unique,
        }.get(word)
        if form:
            return form(place)
        term = self.simple()
        self.expect(";")
        return term

    def jump(self, place):
        form = {"break": "ParsedBreak", "continue": "ParsedContinue"}[self.take().text]
        self.expect(";")
        return f"({form} {place})"

    def leave(self, place):
        self.take()
        value = None if self.at(";") else self.expression()
        self.expect(";")
        return f"(ParsedReturn {place} {option(value)})"

    def branch(self, place):
        self.take()
        test, first = self.condition(), self.statement()
        if self.skip("else"):
            return f"(ParsedIfElse {place} {test} {first} {self.statement()})"
        return f"(ParsedIf {place} {test} {first})"

    def while_loop(self, place):
        self.take()
        test = self.condition()
        return f"(ParsedWhile {place} {test} {self.statement()})"

    def do_loop(self, place):
        self.take()
        body, place = self.statement(), self.place()
        self.expect("while")
        test = self.condition()
        self.expect(";")
        return f"(ParsedDo {body} {place} {test})"

    def for_loop(self, place):
        self.take()
        self.expect("(")
        start = "ParsedEmpty" if self.at(";") else self.declaration() if self.begins_spec() else self.simple()
        self.expect(";")
        test = None if self.at(";") else self.expression()
        self.expect(";")
        update = "ParsedEmpty" if self.at(")") else self.simple()
        self.expect(")")
        return f"(ParsedFor {place} {start} {option(test)} {update} {self.statement()})"

    def switch(self, place):
        self.take()
        selector = self.condition()
        self.expect("{")
        segments = []
        while not self.at("}"):
            segments.append(self.segment())
        self.take()
        term = "ParsedNoMore"
        for segment in reversed(segments):
            term = f"({segment} {term})"
        return f"(ParsedSwitch {place} {selector} {term})"

    def segment(self):
        place, label = self.place(), None
        if not self.skip("default"):
            self.expect("case")
            is_negative = self.skip("-")
            label = f"(label {truth(is_negative)} {self.take().value})"
        self.expect(":")
        body = nested("ParsedNext", self.until("}", "case", "default"), "ParsedLast")
        return f"ParsedSegment {place} {option(label)} {body}"

    def foreach(self, place):
        is_tiled = self.take().text == "foreach_tiled"
        self.expect("(")
        dimensions = []
        while not self.at(")"):
            if dimensions:
                self.expect(",")
            dimensions.append(self.dimension())
        self.take()
        return f"(ParsedForEach {place} {truth(is_tiled)} {items(dimensions)} {self.statement()})"

    def dimension(self):
        at, index = self.place(), self.take().text
        self.expect("=")
        low = self.expression()
        self.expect("...")
        return f"dimension {at} {name(index)} {low} {self.expression()}"

    def foreach_active(self, place):
        self.take()
        self.expect("(")
        at, index = self.place(), self.take().text
        self.expect(")")
        return f"(ParsedForEachActive {place} {at} {name(index)} {self.statement()})"

    def foreach_unique(self, place):
        self.take()
        self.expect("(")
        at, index = self.place(), self.take().text
        self.expect("in")
        value = self.expression()
        self.expect(")")
        return f"(ParsedForEachUnique {place} {at} {name(index)} {value} {self.statement()})"

    # definitions

    def parameter(self):
        spec = self.spec_term()
        at, declared = self.place(), self.take().text
        is_array = self.skip("[")
        if is_array:
            self.expect("]")
        return f"parameter {at} {name(declared)} {spec} {truth(is_array)}"

    def parameters(self):
        self.expect("(")
        if self.at("void") and self.peek(1).text == ")":
            self.take()
        found = []
        while not self.at(")"):
            if found:
                self.expect(",")
            found.append(self.parameter())
        self.take()
        return items(found)

    def global_form(self):
        if self.skip("["):
            length = self.take().value
            self.expect("]")
            return f"(Array {length})"
        if not self.skip("="):
            return "Plain"
        is_negative, token = self.skip("-"), self.take()
        if token.text in ("true", "false"):
            return f"(Initial (Truth {token.text}))"
        flags = f"{truth(token.is_unsigned)} {truth(token.is_long)}"
        return f"(Initial (Number {truth(is_negative)} {token.value} {flags}))"

    def item(self):
        spec = self.spec_term()
        at, defined = self.place(), self.take().text
        if not self.at("("):
            form = self.global_form()
            self.expect(";")
            return f"file_variable {at} {name(defined)} {spec} {form}"
        parameters, body, closing = self.parameters(), self.block(), self.place()
        self.expect("}")
        return f"function {at} {name(defined)} {spec} {parameters}\n      {body} {closing}"

    def source(self):
        found = []
        while self.peek().kind != "end":
            found.append(self.item())
        return "".join(f"\n    ({item}) ∷" for item in found) + " []"


def tree_of(source):
    return Reader(source).source()
