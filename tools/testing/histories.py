"""The longest history: of a program with 250 variables at 16 lanes, in 2 GB, and taken back one by one; and of a loop."""

from .tried import Run

VARIABLES, LANES, MOST = 250, 16, 65_536
MOST_MEMORY = 2 << 30
STATEMENTS = 4  # of a turn of the loop, its test among them
HISTORY = ["--history", str(MOST), "--width", str(LANES)]


def source():
    """A loop without end, with so many variables beside its counter, of which each turn changes some: the last one by the counter."""
    declared = "".join(f"int v{number} = programIndex + {number};\n" for number in range(1, VARIABLES))
    return f"export void go() {{\nint i = 0;\n{declared}for (;;) {{\ni += 1;\nv{VARIABLES - 1} += i;\nv1 ^= i;\n}}\n}}\n"


def at(step):
    """The place after so many steps, all declarations behind."""
    line = VARIABLES + 2 + (step - VARIABLES) % STATEMENTS
    column = 1
    return f"at {line}:{column} go depth 1 lanes {'1' * LANES}\n"


def turns(step):
    """How many turns have done their first and their second statement after so many steps."""
    done = step - VARIABLES
    return (done + STATEMENTS - 2) // STATEMENTS, (done + STATEMENTS - 3) // STATEMENTS


def shown(step):
    """What is printed of the counter and of the last variable after so many steps."""
    first, second = turns(step)
    total = second * (second + 1) // 2
    last = " ".join(str(lane + VARIABLES - 1 + total) for lane in range(LANES))
    return f"i = {' '.join([str(first)] * LANES)}\nv{VARIABLES - 1} = {last}\n"


PRINTS = ["print i", f"print v{VARIABLES - 1}"]


def run(name, lines):
    """A run of these commands, each with its answer."""
    commands, answers = ("".join(f"{it}\n" for it, _ in lines), "".join(it for _, it in lines))
    file = "long.ispc"
    return Run(name, commands.encode(), [file, *HISTORY], answers.encode(), b"", data={file: source().encode()}, memory=MOST_MEMORY)


def printed(step):
    return [(PRINTS[0], shown(step).splitlines(True)[0]), (PRINTS[1], shown(step).splitlines(True)[1])]


def one_by_one():
    """Steps beyond the limit, and each event that is kept taken back by itself, and all of them done again."""
    steps = MOST + 1_000
    lines = [(f"step {steps}", at(steps)), *printed(steps)]
    lines += [("undo", f"undone step: {at(step)}") for step in range(steps - 1, steps - MOST - 1, -1)]
    lines += [("undo", "C3 NoHistory\n"), *printed(steps - MOST), (f"step {MOST}", at(steps)), *printed(steps)]
    return lines


def at_once():
    """The same by one command each way."""
    steps = MOST + 1_000
    back = ("reverse-continue", f"history end: {at(steps - MOST)}")
    return [(f"step {steps}", at(steps)), *printed(steps), back, *printed(steps - MOST), ("reverse-step", "C3 NoHistory\n")]


def begun():
    """Some steps of the same program, and the last of them taken back."""
    steps = VARIABLES + 40
    lines = [(f"step {steps}", at(steps)), *printed(steps)]
    return lines + [("undo", f"undone step: {at(step)}") for step in range(steps - 1, VARIABLES + 3, -1)] + printed(VARIABLES + 4)


OF = f"of {VARIABLES} variables at {LANES} lanes"


def short_runs():
    """What is quick enough for a program that is built with checks."""
    return [run(f"the longest history {OF}", begun())]


def runs():
    back = ((at_once, "at once"), (one_by_one, "one by one"))
    return short_runs() + [run(f"{MOST} steps {OF}, taken back {how}", lines()) for lines, how in back]
