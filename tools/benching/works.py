"""The works that are timed, each as a source for gangs with its commands, and some as a C program with those of gdb."""

STATEMENTS = 2_000
TURNS = 2_000
LATE_TURNS = 10_000  # of five steps each, so that a late watch has 50,000 steps before it
DEPTH = 60


class Work:
    """A source, the commands before those that are measured, the measured ones, and how many things these do."""

    def __init__(self, text, first, measured, count, history=2_048, width=4):
        self.text, self.first, self.measured, self.count = text, first, measured, count
        self.history, self.width = history, width

    def at(self, width):
        return Work(self.text, self.first, self.measured, self.count, self.history, width)


class WayBack:
    """A source, the commands to where a way back begins, those of the way, how many steps it has, and how the places of both ends are told."""

    def __init__(self, text, there, measured, count, ends, width=4):
        self.text, self.there, self.measured, self.count = text, there, measured, count
        self.from_where, self.to_where = ends
        self.width, self.history = width, 65_536

    def at(self, width):
        return WayBack(self.text, self.there, self.measured, self.count, (self.from_where, self.to_where), width)


def straight(variables):
    """A function that declares so many variables and then does the statements, with a variable of the file that it leaves alone."""
    declared = "".join(f"int v{number} = {number};\n" for number in range(variables))
    changed = "".join(f"v{number % variables} += 1;\n" for number in range(STATEMENTS - variables))
    return f"uniform int t = 0;\nexport void go() {{\n{declared}{changed}}}\n"


def loop(turns=TURNS):
    """A function whose `while` takes so many turns of five statements, after which a variable of the file changes."""
    body = "x += i;\nx ^= 5;\nx -= 3;\ni += 1;\n"
    return f"uniform int t = 0;\nexport void go() {{\nint i = 0;\nint x = 0;\nwhile (i < {turns}) {{\n{body}}}\nt = 1;\n}}\n"


def steps_of_loop(turns):
    """How many steps such a function has up to its closing brace."""
    return 2 + 5 * turns + 2


LATE_LINE, FIRST_LINE = 11, 3  # of such a function, and of the same in C: the change behind the turns, and the first statement
STEPS_TO_LATE_LINE = steps_of_loop(LATE_TURNS) - 1


def way_back(stops=()):
    """The way from the late line back to the first one, with stops that do not end it."""
    there = ["delete", f"break {LATE_LINE}", "continue", "delete", *stops]
    ends = f": at {LATE_LINE}:1 go".encode(), f"history end: at {FIRST_LINE}:1 go".encode()
    return WayBack(loop(LATE_TURNS), there, ["reverse-continue"], STEPS_TO_LATE_LINE, ends)


def touching(turns, others=0):
    """The like, whose turns load an element of an array in each lane and store one: two accesses in five statements. So many others are never made."""
    apart = f"void apart() {{\nint p = programIndex;\n{'a[p] = 1;' * others}\n}}\n" if others else ""
    body = "x = a[p];\na[p + 16] = x;\nx ^= 5;\ni += 1;\n"
    return f"uniform int a[32];\n{apart}export void go() {{\nint i = 0;\nint x = 0;\nint p = programIndex;\nwhile (i < {turns}) {{\n{body}}}\nx = 1;\n}}\n"


def elements(length, statement="a[{}] += i;", turns=TURNS):
    """A loop whose turns gather elements of an array of so many, a power of 2, scatter them, or do both in one statement."""
    changed = statement.format(f"(i * 5 + programIndex * 3) & {length - 1}")
    text = f"uniform int a[{length}];\nexport void go() {{\nint i = 0;\nint x = 0;\nwhile (i < {turns}) {{\n{changed}\ni += 1;\n}}\n}}\n"
    steps = 2 + 3 * turns + 1
    return both_ways(text, steps, 1, steps)


GATHER, SCATTER = "x = a[{}];", "a[{}] = i;"


def rounds(indices, count=1_000):
    """The first rounds, each of one statement, of a `foreach` over so many indices, at least four for each round."""
    text = f"export void go() {{\nint x = 0;\nforeach (i = 0 ... {indices})\nx += i;\n}}\n"
    steps = 2 + 2 * count
    return both_ways(text, steps, 1, steps)


def recursion():
    """A function that calls itself down to a depth, and the line of its innermost frame."""
    text = "int down(int n) {\nif (n < 1) {\nreturn 0;\n}\nint r = down(n - 1);\nreturn r + 1;\n}\n"
    return text + f"export void go() {{\nint x = down({DEPTH - 2});\n}}\n", 3


def both_ways(text, steps, rounds, history=2_048):
    moves = [f"step {steps}", f"reverse-step {steps}"] * rounds
    return Work(text, [], moves, 2 * steps * rounds, history)


def forward(history):
    """Steps of a long loop, many more than are kept."""
    return Work(loop(180_000), [], ["step 900000"], 900_000, history)


def continued(stops, rounds=2):
    moves = ["continue", "reverse-continue"] * rounds
    return Work(straight(4), stops, moves, 2 * (STATEMENTS + 1) * rounds)


def single_steps(count=1_000):
    """As many commands, of one step each."""
    return Work(loop(180_000), [], ["step"] * count, count)


def printed(variables):
    return Work(straight(variables), ["step 300"], [f"print v{variables - 1}"] * 4_000, 4_000)


def locals_listed(variables, times):
    return Work(straight(variables), ["step 300"], ["info locals"] * times, times)


# ---- the same in C

def c_straight(statements):
    return "int v;\nint main(void) {\n" + "v += 1;\n" * statements + "return 0;\n}\n"


def c_loop(turns):
    body = "x += i;\nx ^= 5;\nx -= 3;\ni += 1;\n"
    return f"int t = 0;\nint main(void) {{\nint i = 0;\nint x = 0;\nwhile (i < {turns}) {{\n{body}}}\nt = 1;\nreturn 0;\n}}\n"


def c_recursion():
    text = "int down(int n) {\nif (n < 1) {\nreturn 0;\n}\nint r = down(n - 1);\nreturn r + 1;\n}\n"
    return text + f"int main(void) {{\nint x = down({DEPTH - 2});\nreturn x == 0;\n}}\n"
