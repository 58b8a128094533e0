"""Random lane-pure functions: each lane of a call in a gang of 16 ends as it ends alone, in a gang of 4.

The functions of a source are called three times. Once the report of lane-pure functions names each of them. Once all 16 lanes call them
together. And once each of these lanes calls them alone, as a lane of a gang of 4: as lane k where k is below 4, else as another, in
functions that do not name `programIndex`. Both runs print the results, and what the calls left in a variable of the file.
"""

import random

from .tried import Run

SEED, SOURCES, FUNCTIONS, LANES, FEW = 20261126, 30, 10, 16, 4
TYPES = ("int8", "int16", "int", "int64", "uint8", "uint16", "uint", "uint64")
NAMED = range(0, FUNCTIONS, 3)  # functions that name `programIndex`
FACTOR, START = 0x2545F491, 0x1D872B41


class Writer:
    """Writes the text of one function, statement by statement."""

    def __init__(self, chance, number):
        self.chance, self.number = chance, number
        self.names, self.lines, self.count = [], [], 0
        self.fixed = set()

    def fresh(self):
        self.count += 1
        return f"v{self.count}"

    def leaf(self):
        one = self.chance.random()
        if one < 0.25:
            return str(self.chance.choice((0, 1, 2, 3, 7, 100, 127, 255, 32768, 2147483647, 4294967296)))
        if one < 0.35:
            return "shared"
        if one < 0.45 and self.number in NAMED:
            return "programIndex"
        return self.chance.choice(self.names)

    def value(self, depth=3):
        kind = self.chance.randrange(10) if depth else 0
        if kind < 2:
            return self.leaf()
        a, b = self.value(depth - 1), self.value(depth - 1)
        if kind < 6:
            return f"({a} {self.chance.choice(('+', '-', '*', '&', '|', '^', '<<', '>>'))} {b})"
        if kind == 6:
            return f"({a} {self.chance.choice(('/', '%'))} (({b} & 15) + 1))"
        if kind == 7:
            return f"({self.test(depth - 1)} ? {a} : {b})"
        if kind == 8:
            return self.chance.choice((f"min({a}, {b})", f"max({a}, {b})", f"abs({a})", f"popcnt((int64)({a}))", f"table[({a}) & 7]"))
        return f"({self.chance.choice(TYPES)})({a})"

    def test(self, depth=2):
        a, b = self.value(depth), self.value(depth)
        test = f"{a} {self.chance.choice(('<', '<=', '==', '!=', '>', '>='))} {b}"
        return f"({test} {self.chance.choice(('&&', '||'))} {self.leaf()} > {self.leaf()})" if depth and self.chance.random() < 0.3 else f"({test})"

    def line(self, depth, text):
        self.lines.append("    " * depth + text)

    def target(self):
        return self.chance.choice([it for it in self.names if it not in self.fixed] + ["shared"])

    def statements(self, depth, in_loop, callees):
        outer = len(self.names)
        for _ in range(self.chance.randrange(2, 5)):
            self.statement(depth, in_loop, callees)
        del self.names[outer:]

    def statement(self, depth, in_loop, callees):
        kind = self.chance.randrange(12)
        if kind < 2:
            value, name = self.value(), self.fresh()
            self.line(depth, f"{self.chance.choice(TYPES)} {name} = {value};")
            self.names.append(name)
        elif kind < 5 or depth > 3 or kind == 9 and not in_loop or kind == 10 and not callees:
            self.line(depth, f"{self.target()} {self.chance.choice(('=', '+=', '-=', '*=', '^=', '|='))} {self.value()};")
        elif kind < 7:
            self.line(depth, f"if {self.test()} {{")
            self.statements(depth + 1, in_loop, callees)
            if self.chance.random() < 0.5:
                self.line(depth, "} else {")
                self.statements(depth + 1, in_loop, callees)
            self.line(depth, "}")
        elif kind < 9:
            self.loop(depth, callees)
        elif kind == 9:
            self.line(depth, f"if {self.test()} {self.chance.choice(('break', 'continue'))};")
        elif kind == 10:
            arguments = ", ".join(self.value(1) for _ in range(2))
            self.line(depth, f"{self.target()} = {self.chance.choice(callees)}({arguments});")
        else:
            self.line(depth, f"if {self.test()} return {self.value()};")

    def loop(self, depth, callees):
        counter, most = self.fresh(), self.value(1)
        self.names.append(counter)
        self.fixed.add(counter)
        self.line(depth, f"for (int {counter} = 0; {counter} < (int)(({most}) & 3); ++{counter}) {{")
        self.statements(depth + 1, True, callees if depth < 2 else [])
        self.line(depth, "}")
        self.names.remove(counter)

    def function(self, callees):
        types = [self.chance.choice(TYPES) for _ in range(3)]
        self.names += ["a", "b"]
        self.line(0, f"{types[0]} f{self.number}({types[1]} a, {types[2]} b) {{")
        self.statements(1, False, callees)
        self.line(1, f"return {self.value()};")
        self.line(0, "}")
        return "\n".join(self.lines)


def functions(chance):
    """The text of a source's functions. One that does not name `programIndex` calls none that does."""
    texts = []
    for number in range(FUNCTIONS):
        callees = [f"f{it}" for it in range(max(0, number - 3), number) if number in NAMED or it not in NAMED]
        texts.append(Writer(chance, number).function(callees))
    return "\n".join(texts)


def argument(lane, number):
    """The first argument of a lane; the second one is the lane's square and the function's number."""
    word = (lane * FACTOR + START * (number + 1)) % 2**32
    return word - 2**32 if word >= 2**31 else word


HEAD = f"""uniform int64 table[8];
uniform int64 results[{FUNCTIONS * LANES}];
uniform int64 left[{FUNCTIONS * LANES}];
int64 shared;
"""

ENTRY = """
export void go() {
    for (uniform int i = 0; i < 8; ++i) table[i] = i * i * 77 - 5;
    int64 result = 0;
"""


def together(text):
    """All lanes call each function."""
    lines = []
    for number in range(FUNCTIONS):
        first = f"programIndex * {FACTOR} + (int){START * (number + 1) % 2**32}u"
        place = f"{number * LANES} + programIndex"
        lines += [f"    shared = programIndex * 3 + {number};", f"    result = f{number}((int)({first}), programIndex * programIndex + {number});"]
        lines += [f"    results[{place}] = result;", f"    left[{place}] = shared;"]
    return HEAD + text + ENTRY + "\n".join(lines) + "\n}\n"


def alone(text):
    """One lane calls a function for each lane: with that lane's arguments."""
    lines = []
    for number in range(FUNCTIONS):
        for lane in range(FEW if number in NAMED else LANES):
            lines += [f"    if (programIndex == {lane % FEW}) {{", f"        shared = {lane * 3 + number};"]
            lines += [f"        result = f{number}({argument(lane, number)}, {lane * lane + number});"]
            place = f"{number * LANES + lane - lane % FEW} + programIndex"
            lines += [f"        results[{place}] = result;", f"        left[{place}] = shared;", "    }"]
    return HEAD + text + ENTRY + "\n".join(lines) + "\n}\n"


def values(output):
    """What is printed of both arrays, each as its words."""
    lines = [line.split(" = ", 1)[1].split() for line in output.decode().splitlines() if " = " in line]
    return lines if [len(it) for it in lines] == [FUNCTIONS * LANES] * 2 else None


class Pair:
    """The runs of a source, of which the second one has the values that the first one printed, in each lane that it runs."""

    def __init__(self, number):
        self.text, self.number, self.printed = functions(random.Random(SEED + number)), number, None

    def run(self, what, source, words, output):
        file = f"{what}-{self.number}.ispc"
        commands = b"continue\nprint results\nprint left\n"
        return Run(f"lane-pure functions {self.number}, {what}", commands, [file, *words], output, b"", data={file: source.encode()})

    def named(self, output):
        lines = output.decode().splitlines()
        return [line for line in lines[:FUNCTIONS] if not line.endswith(": yes")] + ["a function is not named"] * (len(lines) != FUNCTIONS + 1)

    def first(self, output):
        self.printed = values(output)
        if self.printed is None:
            return ["it did not print both arrays", *output.decode().splitlines()]
        differ = sum(len(set(self.printed[0][at * LANES : at * LANES + LANES])) > 1 for at in range(FUNCTIONS))
        return [] if differ > FUNCTIONS // 3 else [f"only {differ} functions have different results in different lanes"]

    def second(self, output):
        found = values(output)
        if found is None or self.printed is None:
            return ["it did not print both arrays", *output.decode().splitlines()]
        lanes = [(number, lane) for number in range(FUNCTIONS) for lane in range(FEW if number in NAMED else LANES)]
        differ = [(number, lane) for number, lane in lanes for one, other in zip(self.printed, found) if one[number * LANES + lane] != other[number * LANES + lane]]
        return [f"f{number}, lane {lane}: another value alone" for number, lane in differ]

    def runs(self):
        width, few = ["--width", str(LANES)], ["--width", str(FEW)]
        source = together(self.text)
        return [self.run("reported", source, ["--lane-pure"], self.named), self.run("together", source, width, self.first), self.run("alone", alone(self.text), few, self.second)]


def runs():
    return [run for number in range(SOURCES) for run in Pair(number).runs()]
