"""Random programs at the prompt: what is shown for each line that is typed is what tools/meaning/prompt.py makes of it, at 4, 8 and 16 lanes.

The programs have variables of the file of all nine types, arrays that are cut and folded, calls and recursion. The lines move forward and back, go
to steps, set values, select frames, and look at variables, expressions, frames and breakpoints, in all digits. Of a refusal its number is compared.
"""

import functools
import random
import re

from meaning.prompt import Prompt
from meaning.values import is_signed

from .built import ended
from .calls import side_by_side
from .random_programs import Place, Written
from .tried import Run, shown

NAME = "rinddecade, random prompts"
SEED, COUNT, LINES, STEPS = 62, 72, 60, 400
WIDTHS = (4, 8, 16)
TYPES = ("bool", "int8", "int16", "int32", "int64", "uint8", "uint16", "uint32", "uint64")
LETTERS = ("", "", "", "/x", "/t", "/o", "/u", "/c", "/d", " /x", " /t", " /d")
FILES = ("go.ispc", "go.ispc", "a_file_with_a_name_that_is_as_long_as_some_are.ispc")
SIZE, MOST = 230, 160  # the elements of the longest array, and the bytes of the longest expression
MARK, REFUSED = "----", re.compile(r"C\d+")


class Source(Written):
    """A random source with variables of the file of all types, and two arrays more."""

    def __init__(self, chance):
        super().__init__(chance)
        one, other = (chance.choice(TYPES[1:]) for _ in range(2))
        self.lines = [*self.of_all_types(), f"uniform {one} gl[{SIZE}];", f"uniform {other} gm[24];", *self.filled(), *self.lines]

    def of_all_types(self):
        """Two variables of each type, one of them constant at times."""
        found = []
        for number, name in enumerate(TYPES):
            value = self.pick(("true", "false")) if name == "bool" else self.chance.randrange(-100 if is_signed(name) else 0, 128)
            found += [f"{self.pick(('', 'const '))}uniform {name} gc{number} = {value};", f"{name} gd{number} = {value};"]
        return found

    def filled(self):
        """A function that sets what the entry does not know of, whole arrays among it, by rules of its own."""
        lines = ["void fill(uniform int n, int k) {", "uniform int at = 0;", "while (at < n) {", "gl[at] = at / 13 - 2;"]
        lines += [f"gl[{SIZE - 1} - at] = at & 3;"]
        lines += [f"gd{number} = k * {self.chance.randrange(1, 99)} - at;" if name != "bool" else "gd0 = k > at;" for number, name in enumerate(TYPES)]
        return [*lines, "gm[at % 24] = at - 9;", "at++;", "}", "}"]

    def statements(self, depth, place):
        if isinstance(place, Place) and place.calls and self.is_in(25):
            value = self.value("varying", 1)
            self.lines.append(self.pick((f"fill({self.chance.randrange(1, 20)}, {value});", f"gx = f({value}, 3);")))
        super().statements(depth, place)


class Expressions(Written):
    """Random expressions over names."""

    def __init__(self, chance, scope):
        self.chance = chance
        self.uniform = ["gu", "gt", "gc4", "gc8", *(it.name for it in scope if it.rate == "uniform" and not it.is_array)]
        self.varying = ["gv", "gd1", "gd6", *(it.name for it in scope if it.rate == "varying")]

    def one(self):
        """An expression that a line has room for."""
        found = self.value(self.pick(("uniform", "varying")))
        return found if len(found) <= MOST else "gu + gv"


class Typed:
    """A random program, lines that are typed at its prompt, and what is to be shown for each."""

    def __init__(self, number):
        self.chance = random.Random(f"{SEED} {number}")
        self.number, self.width = number, WIDTHS[number % len(WIDTHS)]
        self.source = "\n".join(Source(self.chance).lines) + "\n"
        self.file, self.limit = self.chance.choice(FILES), self.chance.choice((None, None, None, 40))
        self.prompt = Prompt(self.source, self.file, self.limit, width=self.width, steps=STEPS)
        self.first = self.prompt.here()
        self.lines, self.wanted = [], []
        for _ in range(LINES):
            self.lines.append(self.line())
            self.wanted.append(self.prompt.shown_for(self.lines[-1]))

    def target(self, names):
        name = self.chance.choice(names)
        return self.chance.choice((name, name, f"{name}[{self.chance.randrange(self.width + 1)}]"))

    def line(self):
        """A line that can be typed where the program stands."""
        kinds = [self.move] * 5 + [self.look] * 6 + [self.stop] + ([self.frame] * 2 if len(self.prompt.state.frames) > 1 else [])
        return self.chance.choice(kinds)()

    def move(self):
        chance = self.chance
        n = chance.choice((1, 1, 1, 2, 5, 30))
        finish = ["finish"] if self.prompt.selected == 0 else []
        forward = [f"step {n}", f"step {n}", "step", f"next {chance.randrange(1, 4)}", "next", *finish, "continue"]
        back = [f"reverse-step {n}", "reverse-step", f"reverse-next {chance.randrange(1, 4)}", "reverse-finish", "reverse-continue", "undo"]
        there = [] if self.limit else [f"goto {chance.randrange(90)}", f"goto {chance.randrange(9)}", *self.last()]
        return chance.choice(forward * 2 + back + there)

    def last(self):
        """What changed a variable, where no stop is on the way; or, of whatever variable, where a value was set and nothing is done."""
        prompt, is_set = self.prompt, self.prompt.is_set()
        if prompt.stops and not is_set:
            return []
        if not is_set and self.chance.random() < 0.6 and len(prompt.moments()) < STEPS:
            return [f"when {letter}{Expressions(self.chance, []).one()}" for letter in ("", "-a ")]
        names = [it.name for it in prompt.program.globals if not it.is_array] * 2 + [f"gb[{at}]" for at in range(5)]
        names += [it.name for it in prompt.standing().scope] * 4 if is_set and prompt.state.frames else []
        name = self.chance.choice(names)
        return [f"last {name}", f"changes {name}", f"changes {name} {self.chance.randrange(1, 4)}"]

    def look(self):
        chance, it = self.chance, self.prompt.standing()
        letter, scope = chance.choice(LETTERS), it.scope if it else []
        of_file = [v.name for v in self.prompt.program.globals]
        names = [v.name for v in scope] * 4 + of_file
        arrays = ("gl", "gl", "gm", "ga")
        part = f"{chance.choice(arrays)}{chance.choice(('', f'[{chance.randrange(40)}]'))}@{chance.choice((1, 7, 17, 40))}"
        found = [f"print{letter} {self.target(names)}"] * 4 + [f"print{letter} {part}", f"print{letter} {chance.choice(arrays)}"]
        found += ["# step", "  # print 1"] * 2 if chance.random() < 0.5 and not is_refused(self.wanted[-1:]) else []
        found += ["info locals", "info args", "info line", "backtrace", f"backtrace {chance.randrange(1, 4)}", "backtrace full"]
        found += [f"whatis {self.target(names)}"]
        found += [f"print{letter} {Expressions(chance, scope).one()}"] * 4 if it else []
        found += [f"set var {self.target(names)} = {chance.randrange(-3, 9)}"] * (9 if self.prompt.selected else 3) if it else []
        found += self.lists() if self.prompt.selected == 0 and chance.random() < 0.3 else []
        return chance.choice([*found, "info variables", f"display{letter} {chance.choice(names)}"])

    def lists(self):
        """Lists of lines: those behind or before the ones that were listed just now, or around the place behind a move that was done."""
        last, before = self.prompt.line_count() + 4, self.lines[-1] if self.lines else ""
        one, other = sorted((self.chance.randrange(1, last), self.chance.randrange(1, last)))
        found = [f"list {one}", f"list {one},{other}", f"list {one},", f"list ,{one}"]
        if before.startswith("list"):
            return found + ["list"] * 3 + ["list -"] * 3
        return found + (["list"] * 3 if self.prompt.listed is None and self.prompt.state.frames and not is_refused(self.wanted[-1:]) else [])

    def stop(self):
        chance = self.chance
        of_file = self.target([it.name for it in self.prompt.program.globals])
        line, displayed = chance.randrange(1, self.prompt.line_count()), [*self.prompt.displayed]
        if displayed and chance.random() < 0.3:
            return chance.choice(["info display", "undisplay", f"undisplay {chance.choice(displayed)}", "undisplay 99"])
        lines = [f"break {line}", f"tbreak {line}", f"tbreak {line}", f"watch {of_file}", "delete", f"delete {chance.randrange(1, 4)}"]
        return chance.choice([*lines, "info breakpoints"])

    def frame(self):
        chance, selected = self.chance, self.prompt.selected
        down = ["down", f"down {chance.randrange(1, selected + 2)}"]
        return chance.choice(["up", "up", "frame", f"frame {chance.randrange(4)}", f"up {chance.randrange(1, 3)}", *down])

    def run(self):
        typed = "".join(f"{line}\necho {MARK}\n" for line in self.lines)
        words = ["debug", self.file, "--width", str(self.width), "--steps", str(STEPS), *(["--history", str(self.limit)] if self.limit else [])]
        return Run(f"random prompt {self.number}", typed.encode(), words, self.judged, b"", data={self.file: self.source.encode()})

    def judged(self, text):
        """What is wrong with all that is shown: the first line that is answered otherwise, behind those before it."""
        first, *rest = text.decode(errors="replace").split("\n")
        came = blocks([first, *rest], len(self.first))
        if came[0] != self.first:
            return ["the first place:", *came[0]]
        for number, (line, wanted, found) in enumerate(zip(self.lines, self.wanted, came[1:])):
            if not is_same(found, wanted):
                return [f"behind {'; '.join(self.lines[max(0, number - 6) : number])}", f"{line}:", *found, "wanted:", *wanted]
        return [] if len(came) == len(self.lines) + 2 else [f"{len(came) - 2} lines are answered", *shown(text[-600:])]


def blocks(said, first):
    """The lines that are shown at first, and those that are shown for each line that is typed."""
    found, rest = [said[:first]], [[]]
    for line in said[first:]:
        if line == MARK:
            rest.append([])
        else:
            rest[-1].append(line)
    return found + rest


def is_refused(answers):
    """Whether there is an answer, and the last one is a refusal."""
    return bool(answers) and len(answers[-1]) == 1 and REFUSED.fullmatch(answers[-1][0]) is not None


def is_same(found, wanted):
    """Whether the lines are those that are wanted; of a refusal, whether its number is."""
    return bool(found) and found[0].startswith(f"{wanted[0]} ") if is_refused([wanted]) else found == wanted


@functools.cache
def runs():
    return [Typed(number).run() for number in range(COUNT)]


def results(program):
    """A result for each, by an optimized program: with checks such runs take long."""
    return side_by_side(lambda run: ended(program, run), runs())
