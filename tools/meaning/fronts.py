"""Which of S3, S4 and S13 is told of a list of tokens, by the grammar as data and a recognizer for any grammar (Earley's).

- S3 stands at the first token with which no source goes on: those before it are a front of some source, and with it they are a front of none.
  Where all tokens are a front and no source, it stands behind them.
- S4 stands at the token that opens a nesting within 64 others.
- S13 stands at what is one too many: the first token of a parameter, the name of a dimension, the word of a label; and of what is counted in an
  expression at the operator, the `(` of a cast, the `?`, or the name of a call or an indexing.

The first token at which one of them stands has the refusal; at one token S4 comes first, then S13, then S3. What begins with a word of a spec (a
parameter, a body, a cast behind its `(`) begins with any of these words for S4 and S13, also with one that cannot stand there.
"""

import collections

from .grammar import COUNTED, LIMITS, MOST_COUNTED, MOST_NESTINGS, NESTINGS, RULES, SPEC_WORDS, WHOLE

# This word stands in each spec.
ANY_WORD = "uniform"
ORDER = "S4", "S13", "S3"

# How many tokens stand before the place of a refusal, its number, and the part that is one nesting, or one, too many.
Refusal = collections.namedtuple("Refusal", "at number part")

# A state is a rule with a place in it, as a number: what stands next there (None at the end), and the part that the rule is of. One further is the next.
NEXT, PART, BEGINS = [], [], {}
for part, choices in RULES.items():
    BEGINS[part] = []
    for rule in choices:
        BEGINS[part].append(len(NEXT))
        NEXT += [*rule, None]
        PART += [part] * (len(rule) + 1)

EMPTY = {part for part, choices in RULES.items() if () in choices}
while True:
    more = {part for part, choices in RULES.items() if any(EMPTY.issuperset(rule) for rule in choices)}
    if more <= EMPTY:
        break
    EMPTY |= more


class Moment:
    """Where the reading of a front of the tokens may stand: for each part or token that may come next, the items that wait for it.

    An item is a state and the number of tokens before its rule. `counted` is how much was counted so far; `begun` has, of parts with a limit that
    begin with the last token, each with what it is counted in.
    """

    def __init__(self, at, moments, items):
        self.waiting, self.is_source, self.counted, self.begun, self.nestings = {}, False, 0, (), {}
        self.scanned, waiting, begins, empty, following, part_of = items, self.waiting, BEGINS, EMPTY, NEXT, PART
        left, seen = list(items), set(items)

        def add(state, origin):
            if (state, origin) not in seen:
                seen.add((state, origin))
                left.append((state, origin))

        while left:
            state, origin = left.pop()
            wanted = following[state]
            if wanted is None:
                self.is_source |= (part_of[state], origin) == ("source", 0)
                for parent, before in moments[origin].waiting.get(part_of[state], ()) if origin != at else ():
                    add(parent + 1, before)
                continue
            if wanted in waiting:
                waiting[wanted].append((state, origin))
            else:
                waiting[wanted] = [(state, origin)]
                for first in begins.get(wanted, ()):
                    add(first, at)
            if wanted in empty:
                add(state + 1, origin)


class Reading:
    """The moments of a front of some tokens, the first being that before any."""

    def __init__(self, moments=None):
        self.moments = moments or [Moment(0, None, [(it, 0) for it in BEGINS["source"]])]

    def parents(self, part, origin):
        """What a part that begins behind so many tokens may stand in: parts, each with the number of tokens before it."""
        return {(PART[state], before) for state, before in self.moments[origin].waiting.get(part, ())} - {(part, origin)}

    def nestings(self, part, origin):
        """How many nestings are open in such a part, itself included; an `else` belongs to the nearest `if`, where there are most."""
        known = self.moments[origin].nestings
        if part not in known:
            inside = [self.nestings(*it) for it in self.parents(part, origin)]
            known[part] = (part in NESTINGS) + max(inside, default=0)
        return known[part]

    def within(self, parts, part, origin):
        """The number of tokens before the innermost of these parts in which such a part stands, itself included; None in none."""
        while part not in parts:
            above = self.parents(part, origin)
            if not above:
                return None
            part, origin = min(above, key=lambda it: it[1])
        return origin

    def opened(self, items):
        """The parts that begin with the last token."""
        at = len(self.moments) - 1
        found, left = set(), {(PART[state], origin) for state, origin in items if origin == at}
        while left:
            it = left.pop()
            found.add(it[0])
            left |= {above for above in self.parents(*it) if above[1] == at and above[0] not in found}
        return found

    def take(self, token):
        """Reads a token: the refusals that are known then."""
        at, last = len(self.moments) - 1, self.moments[-1]
        items = [(state + 1, origin) for state, origin in last.waiting.get(token, ())]
        if not items:
            others = Reading(self.moments[:]).take(ANY_WORD) if token in SPEC_WORDS and token != ANY_WORD else []
            return [*others, Refusal(at, "S3", None)]
        opened = sorted(self.opened([(state - 1, origin) for state, origin in items]))
        moment = Moment(at + 1, self.moments, items)
        moment.counted = last.counted + any(it in COUNTED for it in opened)
        moment.begun = [(it, self.within({LIMITS[it][0]}, it, at)) for it in opened if it in LIMITS]
        self.moments.append(moment)
        return [*self.too_deep(opened, at), *self.too_much(opened, at), *self.too_many(moment, at)]

    def too_deep(self, opened, at):
        return [Refusal(at, "S4", it) for it in opened if it in NESTINGS and self.nestings(it, at) > MOST_NESTINGS]

    def too_much(self, opened, at):
        """Of an expression that stands in no other one."""
        counted = next((it for it in opened if it in COUNTED), None)
        if counted is None:
            return []
        whole = self.moments[self.within(WHOLE, counted, at)]
        return [Refusal(at + COUNTED[counted], "S13", counted)] if self.moments[-1].counted - whole.counted > MOST_COUNTED else []

    def too_many(self, moment, at):
        """Parameters, dimensions, labels."""
        begun = lambda it: sum(it in other.begun for other in self.moments[it[1] :])
        return [Refusal(at, "S13", it[0]) for it in moment.begun if begun(it) > LIMITS[it[0]][1]]


def refusal(tokens, reading=None):
    """The refusal of these tokens; None where they are a source within the limits. A reading of their first tokens, which have none, may be given."""
    reading = reading or Reading()
    for token in tokens[len(reading.moments) - 1 :]:
        found = reading.take(token)
        if found:
            return min(found, key=lambda it: (it.at, ORDER.index(it.number)))
    return None if reading.moments[-1].is_source else Refusal(len(tokens), "S3", None)
