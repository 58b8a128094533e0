"""The built program without memory in each of its phases: runs that end in one phase after another, each allocation refused in turn.

So each call that takes memory is the last one of some run: what it says where it finds none, and that it answers as ever where it does.
"""

from .hostile import MEMORY, task
from .limits import declarations
from .program import FIRST, HIDDEN, RATE
from .tried import Run


def runs_of_phases():
    """Runs that end in one phase after another, each with the errors that it is refused with."""
    source = b"uniform int t[2];\nexport void go(uniform int n, uniform int a[]) {\nt[0] = n + a[1];\n}\n"
    with_input = lambda text: {"sum.ispc": source, "sum.input": text}
    of = lambda name, text, words=(): Run(name, b"step\n", ["it.ispc", *words], data={"it.ispc": text})
    of_input = lambda name, text: Run(name, b"step\n", ["sum.ispc", "--input", "sum.input"], data=with_input(text))
    return [
        (Run("arguments", b"", ["--width", "5"]), b"error: "),
        (Run("help", b"", ["--help"]), b""),
        (Run("a script", FIRST), b"script: E2"),
        (of("tokens", FIRST + b"`"), b"5:1: S1"),
        (of("the tree", FIRST + b"("), b"5:1: S3"),
        (of("names", FIRST.replace(b"x += 1", b"y += 1")), b"3:5: S5"),
        (of("types", RATE), b"2:21: S7"),
        (of("limits", b"uniform int a[1048577];\n" + FIRST), b"1:13: S13 Limit"),
        (of("an entry", HIDDEN), b"entry: E1"),
        (of_input("a bad line of an input", b"n = 5\nz = 1\n"), b"input 2: I1"),
        (of_input("a missing line of an input", b"n = 5\n"), b"input: I2"),
        (of_input("a value of an input", b"n = 5\na = 1 2 3000000000\n"), b"input 2: I3"),
        (of_input("a large input", b"n = 5\nt = 1 2 3\n"), b"input 2: I4"),
        (of("a report", FIRST, ["--lane-pure"]), b""),
    ]


def of_phase(errors):
    """What is tried with a run that ends in a phase: each allocation is refused, and it says `memory`, or what the whole run says."""

    def tried(case):
        whole, given = case.refusals()
        why = [f"allocation {at}: {it!r}" for at, it in enumerate(given, 1) if it not in (MEMORY, whole)]
        why += [] if whole[2].startswith(errors) and (whole[0] == 2) == bool(errors) else [f"a whole run: {whole!r}"]
        why += [] if given.count(MEMORY) > len(given) / 2 else [f"it says `memory` {given.count(MEMORY)} of {len(given)} times"]
        return case.result(f"each of {len(given)} allocations refused up to there, {given.count(MEMORY)} with `memory`", why)

    return tried


def tasks(program, failing):
    """A task for each run, and for one that takes memory thousands of times."""
    many = Run("limits, with 257 variables", b"step\n", ["it.ispc"], data={"it.ispc": declarations(257)})
    return [task(run, of_phase(errors), program, failing) for run, errors in [*runs_of_phases(), (many, b"258:5: S13 Limit")]]
