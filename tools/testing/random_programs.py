"""Random programs with random commands: what the program answers is what tools/meaning works out.

Their statements are of every form: loops, `switch`, the foreach forms in one another, calls and recursion, arrays and parts of them, packed
calls, `assert`, and values with every call of the library, which may fault.
"""

import random
import re

from .meant import Debugger
from .tried import Run

SEED, COUNT, COMMANDS = 20, 120, 60
TYPES = ("int", "int", "int", "int8", "uint8", "int16", "uint16", "uint", "int64", "uint64", "bool")
OPERATORS = ("+", "-", "*", "&", "|", "^", "<", "<=", "==", "!=", ">", "<<", ">>", "&&", "||", "/", "%")
LABELS = ("case 0", "case 1", "case 2", "case 3", "case -1", "default")
STEPS = 2000

# Calls of the library by their rate: {v} stands for a varying value, {u} for a uniform one, {i} for the number of a lane, which is mostly there.
UNIFORM_CALLS = ("any({v})", "all({v})", "none({v})", "reduce_add({v})", "reduce_min({v})", "reduce_max({v})", "reduce_equal({v})", "lanemask()")
UNIFORM_CALLS += ("popcnt({v} > 1)", "packmask({v})", "extract({v}, {i})", "min({u}, {u})", "clamp({u}, {u}, {u})", "abs({u})", "select({u}, {u}, {u})")
VARYING_CALLS = ("broadcast({v}, {i})", "insert({v}, {i}, {u})", "rotate({v}, {u})", "shift({v}, {u})", "shuffle({v}, {j})", "shuffle({v}, {v}, {j})")
VARYING_CALLS += ("exclusive_scan_add({v})", "exclusive_scan_and({v})", "exclusive_scan_or({v})", "min({v}, {u})", "max({v}, {v})", "clamp({v}, {u}, {v})")
VARYING_CALLS += ("abs({v})", "select({v}, {u}, {v})", "popcnt((uint16)({v}))")
HOLE = re.compile(r"\{([vuij])\}")
PART = """int q(uniform {type} v[], int a, uniform int n) {{
v[(a + n) & 3] += a;
if (n > 0 && n < 3) return q(&v[1], a, n - 1);
n = packed_store_active(v, a);
return v[0];
}}"""


class Written:
    """A random source."""

    def __init__(self, chance):
        self.chance, self.lines, self.names = chance, [], 0
        self.uniform, self.varying = ["gu", "gt"], ["gv", "gw", "gx"]
        element = self.pick(TYPES[:-1])
        self.lines += [f"uniform {self.pick(TYPES[:-1])} gu = 3;", "uniform int gt;", f"{self.pick(TYPES)} gv = 1;", "int gw;"]
        self.lines += [f"uniform {element} ga[8];", "uniform int gb[5];", f"{element} gx;"]
        self.functions()
        self.lines += PART.format(type=element).split("\n")
        self.lines.append("export void go() {")
        self.statements(5, Place())
        self.lines.append("}")

    def pick(self, found):
        return self.chance.choice(found)

    def is_in(self, percent):
        return self.chance.random() * 100 < percent

    def name(self):
        self.names += 1
        return f"x{self.names}"

    def functions(self):
        for head, body in (("int f(int a, uniform int n)", "return a;"), ("uniform int64 u(uniform int n)", "return n + 1;"), ("void p(int a)", "")):
            name, kept = head.split("(")[0].split()[-1], (list(self.uniform), list(self.varying))
            self.lines.append(f"{head} {{")
            self.uniform += ["n"] if "int n" in head else []
            self.varying += ["a"] if "int a" in head else []
            if name == "f":
                self.lines += ["if (n > 0 && n < 4) {", "gw += 1;", "return f(a / 2, n - 1);", "}"]
            self.statements(2, Place(returns={"f": "varying", "u": "uniform", "p": "void"}[name], calls=False))
            self.lines += [body] if body else []
            self.lines.append("}")
            self.uniform, self.varying = kept

    # expressions

    def value(self, rate, depth=2):
        if depth == 0 or self.is_in(25):
            found = [str(self.chance.randrange(6)), "programCount"] + self.uniform * 2
            return self.pick(found + (["programIndex"] * 3 + self.varying * 3 if rate == "varying" else []))
        kind = self.chance.randrange(12)
        if kind == 0:
            return f"ga[({self.value(rate, depth - 1)}) & 7]"
        if kind == 1:
            return f"({self.value(rate, depth - 1)} ? {self.value(rate, depth - 1)} : {self.value(rate, depth - 1)})"
        if kind in (2, 5):
            return self.library(self.pick(UNIFORM_CALLS if rate == "uniform" or self.is_in(30) else VARYING_CALLS), depth - 1)
        if kind == 3:
            return f"{self.pick('-~!')}({self.value(rate, depth - 1)})"
        if kind == 4:
            return f"({self.pick(TYPES)})({self.value(rate, depth - 1)})"
        operator = self.pick(OPERATORS[:-2] if self.is_in(97) else OPERATORS)
        return f"({self.value(rate, depth - 1)} {operator} {self.value(rate, depth - 1)})"

    def library(self, call, depth):
        """A call of the library; a lane that it names is mostly there."""
        lane = lambda rate: f"(({self.value(rate, depth)}) & 3)" if self.is_in(97) else self.value(rate, depth)
        holes = {"v": lambda: self.value("varying", depth), "u": lambda: self.value("uniform", depth)}
        holes |= {"i": lambda: lane("uniform"), "j": lambda: lane("varying")}
        return HOLE.sub(lambda found: holes[found[1]](), call)

    # statements

    def block(self, depth, place):
        kept = list(self.uniform), list(self.varying)
        self.lines.append("{")
        self.statements(depth, place)
        self.lines.append("}")
        self.uniform, self.varying = kept

    def statements(self, depth, place):
        for _ in range(self.chance.randrange(1, 4)):
            self.statement(depth, place)

    def statement(self, depth, place):
        plain = [self.assignment, self.assignment, self.element, self.declaration, self.leaving, self.call, self.packed, self.check]
        nested = [self.branch, self.loop, self.loop, self.switch, self.domain, self.domain, self.lane, self.each_value]
        self.pick(plain if depth == 0 or self.is_in(45) else nested)(depth, place)

    def assignment(self, depth, place):
        rate = self.pick(("uniform", "varying", "varying"))
        names = [it for it in (self.uniform if rate == "uniform" else self.varying) if it[0] in "gx"]
        operator = self.pick(("=", "+=", "-=", "^=", "*=", "|="))
        self.lines.append(f"{self.pick(names)} {operator} {self.value(rate)};")

    def element(self, depth, place):
        if self.is_in(50):
            self.lines.append(f"gb[{self.chance.randrange(5)}] += {self.value('uniform')};")
        else:
            index = f"(programIndex + {self.value('varying', 1)})" + (" & 7" if self.is_in(95) else "")
            self.lines.append(f"ga[{index}] {self.pick(('=', '+=', '^='))} {self.value('varying')};")

    def declaration(self, depth, place):
        if place.is_segment:
            return self.assignment(depth, place)
        rate, name = self.pick(("uniform", "varying")), self.name()
        self.lines.append(f"{rate} {self.pick(TYPES)} {name} = {self.value(rate)};")
        return (self.uniform if rate == "uniform" else self.varying).append(name)

    def leaving(self, depth, place):
        found = (["break"] if place.may_break else []) + (["continue"] if place.may_continue else [])
        if place.returns and not place.in_form:
            found.append("return" if place.returns == "void" else f"return {self.value(place.returns, 1)}")
        if not found:
            return self.assignment(depth, place)
        return self.lines.append(f"if ({self.value('varying', 1)}) {self.pick(found)};")

    def call(self, depth, place):
        if not place.calls:
            return self.assignment(depth, place)
        value = self.value("varying", 1)
        part = self.pick(("ga", f"&ga[({self.value('uniform', 1)}) & 3]"))
        calls = (f"gv = f({value}, {self.chance.randrange(4)});", f"gu = u({self.value('uniform', 1)});", f"p({value});")
        return self.lines.append(self.pick((*calls, f"gv = q({part}, {value}, {self.chance.randrange(3)});")))

    def packed(self, depth, place):
        """A packed call, by few lanes where it is to find its elements."""
        array = self.pick(("ga", f"&ga[({self.value('uniform', 1)}) & 3]"))
        call = self.pick((f"packed_store_active({array}, {self.value('varying', 1)})", f"packed_load_active({array}, &gx)"))
        test = f"if (({self.value('varying', 1)}) != 1 && programIndex % 4 == {self.chance.randrange(4)}) " if self.is_in(90) else ""
        return self.lines.append(f"{test}{self.pick(('gu = ', 'gt = ', 'gv = ', ''))}{call};")

    def check(self, depth, place):
        value = self.value("varying", 1)
        return self.lines.append(f"assert({value});" if self.is_in(3) else f"assert(programIndex < {self.chance.randrange(15, 17)} || {value});")

    def branch(self, depth, place):
        self.lines.append(f"if ({self.value('varying')})")
        self.block(depth - 1, place.inner())
        if self.is_in(50):
            self.lines.append("else")
            self.block(depth - 1, place.inner())

    def loop(self, depth, place):
        name, times, within = self.name(), self.chance.randrange(1, 4), place.inner(may_break=True, may_continue=True)
        self.lines.append("{")
        kind = self.chance.randrange(3)
        if kind == 0:
            self.lines.append(f"for (int {name} = 0; {name} < {times}; {name}++)")
            self.block(depth - 1, within)
        else:
            self.lines += [f"int {name} = 0;", "do {" if kind == 1 else f"while ({name} < {times}) {{", f"{name}++;"]
            self.block(depth - 1, within)
            self.lines.append(f"}} while ({name} < {times});" if kind == 1 else "}")
        self.lines.append("}")

    def switch(self, depth, place):
        labels = self.chance.sample(LABELS, self.chance.randrange(1, 5))
        self.lines.append(f"switch ((int)({self.value('varying')}) {self.pick(('& 3', '% 4', '- 1'))}) {{")
        for label in labels:
            self.lines.append(f"{label}:")
            self.statement(depth - 1, place.inner(may_break=True, is_segment=True))
            if self.is_in(40):
                self.lines.append("break;")
        self.lines.append("}")

    def form(self, head, rate, names, depth, place, **more):
        kept = list(self.uniform), list(self.varying)
        self.lines.append(head)
        (self.uniform if rate == "uniform" else self.varying).extend(names)
        self.block(depth - 1, place.inner(in_form=True, may_break=False, may_continue=True, **more))
        self.uniform, self.varying = kept

    def domain(self, depth, place):
        if place.in_domain:
            return self.lane(depth, place)
        names = [f"i{self.name()}" for _ in range(self.chance.randrange(1, 4))]
        dims = ", ".join(f"{it} = {self.chance.randrange(-1, 3)} ... {self.pick(('gt & 7', str(self.chance.randrange(0, 7))))}" for it in names)
        return self.form(f"{self.pick(('foreach', 'foreach_tiled'))} ({dims})", "varying", names, depth, place, in_domain=True)

    def lane(self, depth, place):
        name = f"i{self.name()}"
        self.form(f"foreach_active ({name})", "uniform", [name], depth, place)

    def each_value(self, depth, place):
        name = f"i{self.name()}"
        self.form(f"foreach_unique ({name} in {self.value('varying')})", "uniform", [name], depth, place)


class Place:
    """What may stand at a place of a source."""

    def __init__(self, **given):
        self.may_break = self.may_continue = self.in_form = self.in_domain = self.is_segment = False
        self.returns, self.calls = None, True
        self.__dict__.update(given)

    def inner(self, **changed):
        return Place(**(self.__dict__ | {"is_segment": False} | changed))


def commands(chance, names, lines):
    """Random command lines."""
    found = []
    for _ in range(COMMANDS):
        n = chance.choice((1, 1, 2, 3, 7, 40))
        forward = [f"step {n}", f"step {n}", f"step {n}", f"next {chance.randrange(1, 4)}", chance.choice(("finish", "continue"))]
        backward = [f"reverse-step {n}", f"reverse-step {3 * n}", f"reverse-next {chance.randrange(1, 4)}", "undo"]
        backward.append(chance.choice(("reverse-finish", "reverse-continue")))
        target = chance.choice((*names, *(f"{it}[{chance.randrange(5)}]" for it in names)))
        other = [f"print {target}", f"print {target}", "info locals", "backtrace", f"set var {target} = {chance.randrange(-3, 9)}"]
        stops = [f"break {chance.randrange(1, lines)}", f"watch {target}", "delete", "info breakpoints"]
        found.append(chance.choice(forward * 3 + backward * 2 + other * 2 + stops))
    return found


def run_of(number):
    """The random program of this number, with its answers."""
    chance = random.Random(f"{SEED} {number}")
    source = Written(chance).lines
    lines = commands(chance, ("gu", "gt", "gv", "gw", "gx", "ga", "gb", "x9", "a", "n"), len(source))
    width, history = chance.choice((4, 8, 16)), chance.choice((3, 64, 500))
    debugger = Debugger("\n".join(source) + "\n", width, history, STEPS)
    answers = "".join(f"{line}\n" for answer in debugger.answers(lines) for line in answer)
    file = f"random-{number}.ispc"
    words = [file, "--width", str(width), "--history", str(history), "--steps", str(STEPS)]
    data = {file: ("\n".join(source) + "\n").encode()}
    return Run(f"random program {number}", "".join(f"{it}\n" for it in lines).encode(), words, answers.encode(), b"", data=data)


def runs():
    return [run_of(number) for number in range(COUNT)]
