"""A step of each form of the language beside the same machine in plain C: how many times as long the program takes, forward and back.

The C program (forms.c) has the machine's words, lanes and record, and does nothing else. Both step through the same source, in runs of theirs that
alternate. Each has first filled its record, so that what it writes to is its own memory; then it steps on some times, and back and on again
some times, and each time is the least of all these, in seconds of the processor. Until its record is full the program is given new memory by the
system, step by step: what a step takes then is told of some forms.
"""

import pathlib
import shutil
import subprocess
import tempfile

from .desks import TIMES, apart, least, scripted
from .timed import NotRun

SOURCE = pathlib.Path(__file__).with_name("forms.c")
WIDTHS = (4, 8, 16)
HISTORY, STEPS, ROUNDS = 65_536, 60_000, 3
FILLING = 400_000  # steps, behind which no form's record takes new memory
GROWING = ("loop", "foreach")
MANY = 100_000_000
ARRAY = "uniform int a[4096];\n"
PLACE = "(i * 5 + programIndex * 3) & 4095"


def looped(statement, before=""):
    """A function whose loop does a statement and counts."""
    return f"{before}export void go() {{\nint i = 0;\nint x = 0;\nwhile (i < {MANY}) {{\n{statement}\ni += 1;\n}}\n}}\n"


def switched(value):
    return looped(f"switch ({value}) {{\ncase 0: x += 1; break;\ncase 1: x += 2; break;\ncase 2: x ^= 5; break;\ndefault: x -= 1;\n}}")


def domain(head, value):
    return f"export void go() {{\nint x = 0;\n{head} {{\nx += {value};\n}}\n}}\n"


FORMS = {
    "loop": looped("x += i;\nx ^= 5;\nx += 7;\nx -= 3;"),
    "expression": looped("x = ((((i * 5 + programIndex * 3) ^ x) + 7) - i) & 1023;"),
    "gather": looped(f"x += a[{PLACE}];", ARRAY),
    "scatter": looped(f"a[{PLACE}] = i;", ARRAY),
    "element": looped(f"a[{PLACE}] += i;", ARRAY),
    "reduce_add": looped("x += reduce_add(i);"),
    "rotate": looped("x = rotate(i, 1);"),
    "shuffle": looped("x = shuffle(i, programCount - 1 - programIndex);"),
    "exclusive_scan_add": looped("x = exclusive_scan_add(i);"),
    "min": looped("x = min(i, programIndex);"),
    "popcnt": looped("x = popcnt(i);"),
    "any": looped("x = any(i < 5) ? 1 : 0;"),
    "switch": switched("i & 3"),
    "switch apart": switched("(i + programIndex) & 3"),
    "foreach": domain("foreach (i = 0 ... 1000000000)", "i"),
    "foreach_tiled": domain("foreach_tiled (r = 0 ... 30000, c = 0 ... 30000)", "r + c"),
    "foreach_unique": looped("foreach_unique (v in programIndex & 3) {\nx += v;\n}"),
    "call": looped("x = f(i, a);", ARRAY + "int f(int k, uniform int b[]) {\nint r = k + 1;\nreturn r;\n}\n"),
}


def is_there():
    return shutil.which("cc") is not None


def compiled(folder):
    """The C program at each width."""
    made = {}
    for width in WIDTHS:
        made[width] = pathlib.Path(folder, f"forms{width}")
        subprocess.run(["cc", "-O2", "-w", f"-DLANES={width}", "-o", made[width], SOURCE], check=True)
    return made


def of_c(program, form):
    """The seconds of STEPS steps forward and of as many back, in C."""
    words = [program, form, *map(str, (STEPS + FILLING, STEPS, TIMES, HISTORY))]
    ended = subprocess.run(words, capture_output=True, text=True)
    if ended.returncode:
        raise NotRun(f"forms.c ends with status {ended.returncode}")
    forward, back, _ = ended.stdout.split()
    return float(forward) * STEPS / 1e9, float(back) * STEPS / 1e9


def stepped(desk, command, steps=STEPS):
    """The seconds of a command that takes so many steps, all of them."""
    before = desk.used()
    told = desk.done([f"{command} {steps}"])
    if not told.startswith(b"at "):
        raise NotRun(f"{command} {steps} comes to {told.split(desk.mark[1])[0].decode().strip()}")
    return desk.used() - before


def of_program(program, folder, form, width):
    """The seconds of the first STEPS steps, of as many forward in a full record, of as many back, and of a line that does nothing."""
    with scripted(program, folder, FORMS[form], HISTORY, width) as desk:
        first = stepped(desk, "step")
        stepped(desk, "step", FILLING)
        forward = [(stepped(desk, "step"), desk.seconds([])) for _ in range(TIMES)]
        back = [(stepped(desk, "reverse-step"), stepped(desk, "step")) for _ in range(TIMES)]
    on, nothing = least(forward)
    returned, _ = least(back)
    return first, on, returned, nothing


def beside(taken, nothing, of_c):
    """How many times as long as in C the program's steps take; None where they are too few to tell."""
    seconds = apart(taken, nothing)
    return None if seconds is None else seconds / of_c


def ratios(program, plain, folder, form, width):
    """How many times as long as in C the program takes for a step forward, for one back, and for one forward while its record grows."""
    rounds = [(*of_c(plain, form), *of_program(program, folder, form, width)) for _ in range(ROUNDS)]
    forward, back, first, on, returned, nothing = least(rounds)
    return beside(on, nothing, forward), beside(returned, nothing, back), beside(first, nothing, forward)


def told(program):
    """For each form its name and the three ratios at each width."""
    with tempfile.TemporaryDirectory(prefix="bench-forms-") as folder:
        plain = compiled(folder)
        for form in FORMS:
            yield form, [ratios(program, plain[width], folder, form, width) for width in WIDTHS]
