"""What a grammar of TextMate's form says of a text: a small reader of such grammars, as VS Code reads them.

It knows patterns with `match` and with `begin` and `end`, their captures, and what is included from the repository. The expressions are to be
those that Python and the editor's engine read alike; `\\1` in an `end` is none.
"""

import json
import re


class Rule:
    """A pattern: the expression that it begins with, and the one that it ends with if it goes on."""

    def __init__(self, given):
        self.name = given.get("name")
        self.start = re.compile(given.get("match") or given["begin"])
        self.end = re.compile(given["end"]) if "end" in given else None
        same = given.get("captures", {})
        self.captures = {"start": given.get("beginCaptures", same), "end": given.get("endCaptures", same)}
        self.patterns = given.get("patterns", [])


class Grammar:
    def __init__(self, text):
        self.given = json.loads(text)
        self.root = self.rules(self.given["patterns"])

    def rules(self, patterns):
        """The rules of a list of patterns, with those that it includes."""
        found = []
        for it in patterns:
            if "include" in it:
                found += self.rules(self.given["repository"][it["include"].removeprefix("#")]["patterns"])
            else:
                found.append(Rule(it))
        return found

    def scopes(self, text):
        """The names that each character of a text has, the outer ones first."""
        found, inside = [], []
        for line in re.findall(r"[^\n]*\n|[^\n]+", text):
            found += self.of_line(line, inside)
        return found

    def of_line(self, line, inside):
        """The names of each character of a line. The rules that go on from line to line are left in `inside`."""
        found = []
        while True:
            part, rule, side = self.next_part(line, len(found), inside)
            found += [names(inside)] * ((part.start() if part else len(line)) - len(found))
            if part is None:
                return found
            if not part[0]:
                raise ValueError(f"{rule.name} matches nothing")
            if side == "end":
                inside.pop()
            found += painted(part, (*names(inside), rule.name), rule.captures[side])
            if side == "start" and rule.end:
                inside.append(rule)

    def next_part(self, line, at, inside):
        """The first place where a rule matches, and that rule; of several there, the one that is listed first, an `end` before all."""
        starts = self.rules(inside[-1].patterns) if inside else self.root
        sides = [(it.end, it, "end") for it in inside[-1:]] + [(it.start, it, "start") for it in starts]
        matches = [(expression.search(line, at), rule, side) for expression, rule, side in sides]
        return min((it for it in matches if it[0]), key=lambda it: it[0].start(), default=(None, None, None))


def names(inside):
    return tuple(rule.name for rule in inside)


def painted(part, outer, captures):
    """The names of the characters of a match: those outside, and those of its groups."""
    found = [outer] * len(part[0])
    for group, named in captures.items():
        for at in range(*part.span(int(group))):
            found[at - part.start()] += (named["name"],)
    return found
