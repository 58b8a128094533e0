"""Accepted sources as trees of nodes."""

import pathlib
import sys

sys.path.insert(0, str(pathlib.Path(__file__).resolve().parents[1]))

from tree_of_source import LEVELS, TYPES, Reader

from .values import wrapped

UNSIGNED = {"int8": "uint8", "int16": "uint16", "int64": "uint64", "int32": "uint32", None: "uint32"}


class Node:
    """A part of a tree: its kind, its place, and what it has."""

    def __init__(self, kind, place, **fields):
        self.kind, self.place = kind, place
        self.__dict__.update(fields)


class Spec:
    """The words before a declared name."""

    def __init__(self, words):
        self.is_exported, self.is_constant = "export" in words, "const" in words
        self.rate = next((it for it in words if it in ("uniform", "varying")), None)
        self.type = next((TYPES[it].lower() for it in words if it in TYPES), "void" if "void" in words else None)
        if "unsigned" in words:
            self.type = UNSIGNED[self.type]


def number_type(token):
    """The first type of its suffix that holds a number."""
    held = {"int32": 2**31, "uint32": 2**32, "int64": 2**63, "uint64": 2**64}
    types = [it for it in held if not (token.is_unsigned and it[0] == "i" or token.is_long and it.endswith("32"))]
    types = [it for it in types if it != "uint32" or token.is_unsigned]
    return next(it for it in types if token.value < held[it])


class Parser(Reader):
    """A reader that makes nodes."""

    def place(self):
        return self.peek().line, self.peek().column

    def spec(self):
        words = []
        while self.begins_spec():
            words.append(self.take().text)
        return Spec(words)

    # expressions

    def expression(self):
        place, test = self.place(), self.level(0)
        if not self.skip("?"):
            return test
        first = self.expression()
        self.expect(":")
        return Node("choice", place, test=test, first=first, other=self.expression())

    def level(self, n):
        if n == len(LEVELS):
            return self.unary()
        place, left = self.place(), self.level(n + 1)
        while self.peek().kind == "mark" and self.peek().text in LEVELS[n]:
            operator = self.take().text
            left = Node("binary", place, operator=operator, left=left, right=self.level(n + 1))
        return left

    def unary(self):
        place = self.place()
        if self.at("-", "+", "!", "~"):
            operator = self.take().text
            return Node("unary", place, operator=operator, operand=self.unary())
        if self.at("(") and self.begins_spec(1):
            self.take()
            spec = self.spec()
            self.expect(")")
            return Node("cast", place, spec=spec, operand=self.unary())
        return self.primary()

    def primary(self):
        place, token = self.place(), self.take()
        if token.kind == "number":
            return Node("number", place, value=token.value, type=number_type(token))
        if token.text in ("true", "false"):
            return Node("number", place, value=int(token.text == "true"), type="bool")
        if token.text == "(":
            inner = self.expression()
            self.expect(")")
            return inner
        if self.at("["):
            return Node("element", place, name=token.text, index=self.index())
        if self.at("("):
            return Node("call", place, name=token.text, arguments=self.arguments())
        return Node("name", place, name=token.text)

    def arguments(self):
        self.expect("(")
        found = []
        while not self.at(")"):
            if found:
                self.expect(",")
            found.append(self.argument())
        self.take()
        return found

    def argument(self):
        place = self.place()
        if not self.skip("&"):
            return self.expression()
        name = self.take().text
        return Node("part", place, name=name, start=self.index() if self.at("[") else None)

    # statements

    def target(self):
        place, name = self.place(), self.take().text
        return Node("element", place, name=name, index=self.index()) if self.at("[") else Node("name", place, name=name)

    def simple(self):
        place, one = self.place(), Node("number", self.place(), value=1, type="int32")
        if self.at("++", "--"):
            operator = self.take().text[0]
            return Node("change", place, target=self.target(), operator=operator, value=one)
        if self.peek().kind == "name" and self.peek(1).text == "(":
            return Node("call statement", place, value=self.primary())
        target = self.target()
        mark = self.take().text
        if mark in ("++", "--"):
            return Node("change", place, target=target, operator=mark[0], value=one)
        if mark == "=":
            return Node("assign", place, target=target, value=self.expression())
        return Node("change", place, target=target, operator=mark[:-1], value=self.expression())

    def declaration(self):
        place, spec, name = self.place(), self.spec(), self.take().text
        return Node("declare", place, spec=spec, name=name, value=self.expression() if self.skip("=") else None)

    def block(self):
        place = self.place()
        self.expect("{")
        found = Node("block", place, statements=self.until("}"), closing=self.place())
        self.expect("}")
        return found

    def statement(self):
        if self.at("{"):
            return self.block()
        if self.at(";"):
            return Node("block", (self.take().line, 0), statements=[])
        if self.begins_spec():
            found = self.declaration()
            self.expect(";")
            return Node("block", found.place, statements=[found], is_bare=True)
        if self.peek().kind == "word":
            return super().statement()
        found = self.simple()
        self.expect(";")
        return found

    def until(self, *ends):
        found = []
        while not self.at(*ends):
            one = self.statement()
            found += one.statements if getattr(one, "is_bare", False) else [one]
        return found

    def jump(self, place):
        kind = self.take().text
        self.expect(";")
        return Node(kind, place)

    def leave(self, place):
        self.take()
        value = None if self.at(";") else self.expression()
        self.expect(";")
        return Node("return", place, value=value)

    def branch(self, place):
        self.take()
        test, first = self.condition(), self.statement()
        return Node("if", place, test=test, first=first, other=self.statement() if self.skip("else") else None)

    def while_loop(self, place):
        self.take()
        return Node("for", place, start=None, test=self.condition(), update=None, body=self.statement())

    def do_loop(self, place):
        self.take()
        body, place = self.statement(), self.place()
        self.expect("while")
        test = self.condition()
        self.expect(";")
        return Node("do", place, test=test, body=body)

    def for_loop(self, place):
        self.take()
        self.expect("(")
        start = None if self.at(";") else self.declaration() if self.begins_spec() else self.simple()
        self.expect(";")
        test = None if self.at(";") else self.expression()
        self.expect(";")
        update = None if self.at(")") else self.simple()
        self.expect(")")
        return Node("for", place, start=start, test=test, update=update, body=self.statement())

    def switch(self, place):
        self.take()
        selector, segments = self.condition(), []
        self.expect("{")
        while not self.skip("}"):
            segments.append(self.segment())
        return Node("switch", place, selector=selector, segments=segments)

    def segment(self):
        label = None
        if not self.skip("default"):
            self.expect("case")
            is_negative = self.skip("-")
            label = self.take().value * (-1 if is_negative else 1)
        self.expect(":")
        return label, self.until("}", "case", "default")

    def foreach(self, place):
        is_tiled, dimensions = self.take().text == "foreach_tiled", []
        self.expect("(")
        while not self.at(")"):
            if dimensions:
                self.expect(",")
            dimensions.append(self.dimension())
        self.take()
        return Node("domain", place, is_tiled=is_tiled, dimensions=dimensions, body=self.statement())

    def dimension(self):
        name = self.take().text
        self.expect("=")
        low = self.expression()
        self.expect("...")
        return name, low, self.expression()

    def foreach_active(self, place):
        self.take()
        self.expect("(")
        name = self.take().text
        self.expect(")")
        return Node("each lane", place, name=name, body=self.statement())

    def foreach_unique(self, place):
        self.take()
        self.expect("(")
        name = self.take().text
        self.expect("in")
        value = self.expression()
        self.expect(")")
        return Node("each value", place, name=name, value=value, body=self.statement())

    # definitions

    def parameter(self):
        spec, name, is_array = self.spec(), self.take().text, self.skip("[")
        if is_array:
            self.expect("]")
        return spec, name, is_array

    def parameters(self):
        self.expect("(")
        if self.at("void") and self.peek(1).text == ")":
            self.take()
        found = []
        while not self.skip(")"):
            if found:
                self.expect(",")
            found.append(self.parameter())
        return found

    def item(self):
        spec, name = self.spec(), self.take().text
        if self.at("("):
            return Node("function", None, spec=spec, name=name, parameters=self.parameters(), body=self.block())
        length, value = None, 0
        if self.skip("["):
            length = self.take().value
            self.expect("]")
        elif self.skip("="):
            sign = -1 if self.skip("-") else 1
            token = self.take()
            value = int(token.text == "true") if token.text in ("true", "false") else wrapped(number_type(token), sign * token.value)
        self.expect(";")
        return Node("global", None, spec=spec, name=name, length=length, value=value)

    def items(self):
        found = []
        while self.peek().kind != "end":
            found.append(self.item())
        return found


def items_of(source):
    """The functions and variables of a source."""
    return Parser(source).items()
