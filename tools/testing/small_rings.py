"""Random programs at the prompt, over a record of 8 events and 3 copies: each line is answered as over the usual record, which holds all of it.

So going back begins again at copies, or at the start, and does steps and pokes from there on again, all the time. The program with the small
record is built in a copy of the sources, in which three texts are turned. Under refused memory it goes on without a copy, or refuses a line
that sets a value, and then answers as if that line had not been there.
"""

import functools
import pathlib
import random
import re
import tempfile

from . import hostile, turned
from .calls import go_on, side_by_side
from .hostile import Case
from .random_programs import Written
from .tried import Result, Run
from .turned import Turn

NAME, CRATE = "rinddecade, small rings", "rinddecade"
EVENTS, COPIES, DISTANCE = 8, 3, 5
COPY_PLAN = "crates/whole_runs/src/copies.rt"
TURNS = (
    Turn("crates/ispc_debugger/src/opening.rt", "options.history as usize,", f"(options.history as usize).min({EVENTS}),"),
    Turn(COPY_PLAN, ".clamp(8, 1024);", f".min({COPIES});"),
    Turn(COPY_PLAN, "(words as u64).saturating_mul(2).max(4096)", f"(words as u64).min({DISTANCE})"),
)
SEED, PROGRAMS, LINES, STEPS = 47, 300, 40, 300
REFUSED, FEW = 3, 16  # so many programs, and so many lines of each, are tried with refused memory
WIDTHS = (4, 8, 16)
NAMES = ("gu", "gt", "gv", "gw", "gx", "ga", "gb", "x2", "x5", "a", "n")
MARK = b"----"
# A place tells its step, and so does the end.
PLACE = re.compile(rb"^(?:[^\n]*: |[^\n]*:\n)?\w+ at \S+?:\d+:\d+,[^\n]*?\bstep (\d+),\s+lanes|the program has ended after (\d+) step", re.M)
NOT_DONE, NOT_THERE, RUN_IS_OVER = b"Nothing is done", b"is never reached", (b"the program has ended", b"nothing of this step is done")
MEMORY = b"memory\n"
# What copies there are, which is another over another record.
COPIES_TOLD = re.compile(rb"^copies of moments of the run: .*\n", re.M)
MEMORY_WANTED = re.compile(rb"\bmemory\b", re.I)
# How often `goto` goes to a step that is there, and how many answers differ from the one before, at least: so the programs do something.
LEAST_FOUND, LEAST_ANSWERS = 500, 5_000


def dense(chance):
    """A loop of a few statements over the variables of the file: a value that is set counts in nearly every step behind it."""
    lines = ["uniform int gu = 3;", "uniform int gt;", "int gv = 1;", "int gw;", "int gx;", "uniform int ga[8];", "uniform int gb[5];"]
    lines += ["export void go() {", f"for (uniform int i = 0; i < {chance.randrange(2, 30)}; i++) {{"]
    for _ in range(chance.randrange(3, 8)):
        one, other = chance.sample(("gv", "gw", "gx"), 2)
        operator, number = chance.choice(("=", "+=", "^=", "-=")), chance.randrange(4)
        lines.append(
            chance.choice(
                (
                    f"{one} {operator} {other} + gu;",
                    f"{one} {operator} {other} - {number};",
                    f"if ({one} > {other}) {one} {operator} programIndex;",
                    f"gu {operator} gt + reduce_add({one});",
                    f"gt {operator} gu & {number + 1};",
                    f"ga[gu & 7] {operator} gt + {number};",
                )
            )
        )
    return [*lines, "}", "}"]


class Typed:
    """A random program, and lines that are typed at its prompt, each with what is looked at behind it."""

    def __init__(self, number, count=LINES):
        chance = random.Random(f"{SEED} {number}")
        self.number, self.width = number, WIDTHS[number % len(WIDTHS)]
        self.source = dense(chance) if number % 2 else Written(chance).lines
        self.has_limit = chance.random() < 0.1
        self.lines = [self.line(chance) for _ in range(count)]

    def line(self, chance):
        """A line: a move forward or back, a step of the run that is gone to, a value that is set, a stop, or a question."""
        n = chance.choice((1, 1, 2, 3, 7, 40))
        target = lambda names: chance.choice((*names, *(f"{it}[{chance.randrange(5)}]" for it in names)))
        of_file, of_any = target(NAMES[:7]), target(NAMES)
        forward = [f"step {n}", f"step {3 * n}", f"next {chance.randrange(1, 4)}", chance.choice(("finish", "continue")), f"until {chance.randrange(1, len(self.source))}"]
        back = [f"reverse-step {n}", f"reverse-step {3 * n}", f"reverse-next {chance.randrange(1, 4)}", "undo", "undo", chance.choice(("reverse-finish", "reverse-continue"))]
        moments = [f"goto {chance.randrange(12)}", f"goto {chance.randrange(12)}", f"goto {chance.randrange(120)}"] * 2
        moments += ["checkpoint", f"restart {chance.randrange(1, 4)}", chance.choice((f"last {of_file}", f"changes {of_file}", "run", "start"))]
        pokes = [f"set var {chance.choice(NAMES[:5])} = {chance.randrange(-3, 9)}"] * 6 + [f"set var {of_any} = {chance.randrange(-3, 9)}"] * 3
        stops = [f"break {chance.randrange(1, len(self.source))}", f"watch {of_file}", "delete", "delete"]
        looks = [f"print {of_any}", f"print {of_any} + 1", "backtrace", "info breakpoints", "info checkpoints"]
        limits = [f"set record full insn-number-max {chance.choice((1, 5, 9, 300))}"] if self.has_limit else []
        return chance.choice(forward * 3 + back * 3 + moments + pokes + stops + looks + limits)

    def run(self, without=None):
        """The run of these lines: behind each two variables and how much was done, behind each fourth the local ones, and a mark. A line may be left out."""
        typed = []
        for at, line in enumerate(self.lines):
            typed += [] if at == without else [line]
            typed += ["print gw", "print ga", *(["info locals"] if at % 4 == 0 else []), "info record", f"echo {MARK.decode()}"]
        file = f"ring-{self.number}.ispc"
        words = ["debug", file, "--width", str(self.width), "--steps", str(STEPS)]
        return Run(f"{NAME}, program {self.number}", as_bytes(typed), words, data={file: as_bytes(self.source)})


def as_bytes(lines):
    return "".join(f"{it}\n" for it in lines).encode()


def answers(program, run):
    """What is shown for each line, up to the mark behind it; or why there is no such text."""
    go_on()
    with tempfile.TemporaryDirectory(prefix="rings-") as folder:
        return blocks(*Case(run, folder, program, None).called({}, run.stdin))


def blocks(status, output, errors):
    """What is shown for each line of a run that has ended so."""
    if (status, errors) != (0, b""):
        return [b"status %d, " % status + errors]
    return without_copies(output).split(MARK + b"\n")[:-1]


def without_copies(output):
    """What is shown, but for the copies that are kept."""
    return COPIES_TOLD.sub(b"", output)


def is_found(line, block):
    """Whether a line goes to a step by its number and finds it; a fault where another step is shown, or the run does not end before it."""
    number = line.removeprefix("goto ")
    if number == line or NOT_DONE in block:
        return False
    if NOT_THERE in block:
        if not any(it in block for it in RUN_IS_OVER):
            raise ValueError(f"{line} does not reach its step, and the run goes on there")
        return False
    steps = [int(one or other) for one, other in PLACE.findall(block)]
    if steps[-1:] != [int(number)]:
        raise ValueError(f"{line} shows the steps {steps}")
    return True


class Compared:
    """A program of which each line is answered by both builds."""

    def __init__(self, typed, usual, small):
        self.typed, self.found, self.why = typed, 0, []
        self.usual = answers(usual, typed.run())
        given = answers(small, typed.run())
        if len(self.usual) != len(typed.lines):
            self.why.append(f"{len(self.usual)} of {len(typed.lines)} lines are answered: {self.usual[-1:]}")
        elif given != self.usual:
            self.why += first_difference(typed, given, self.usual)
        self.changes = sum(one != other for one, other in zip(self.usual, self.usual[1:]))
        self.count_found()

    def count_found(self):
        for line, block in zip(self.typed.lines, self.usual):
            try:
                self.found += is_found(line, block)
            except ValueError as fault:
                self.why.append(str(fault))

    def result(self):
        return Result(f"program {self.typed.number}, at {self.typed.width} lanes", not self.why, self.why)


def first_difference(typed, given, wanted):
    """The first line that is answered otherwise, both answers, and the lines before it."""
    at = first_other(given, wanted)
    came = given[at] if at < len(given) else b"nothing"
    before = "; ".join(typed.lines[: at + 1][-8:])
    return [f"line {at + 1}, behind {before}:", *differing(came.decode(errors="replace"), wanted[at].decode(errors="replace"))]


def differing(came, wanted):
    """The lines of two texts that are not in both, of each the first four."""
    one, other = came.splitlines(), wanted.splitlines()
    return [f"small: {it}" for it in one if it not in other][:4] + [f"usual: {it}" for it in other if it not in one][:4]


def first_other(given, wanted):
    """The number of the first that is another in both lists."""
    return next((at for at, (one, other) in enumerate(zip(given, wanted)) if one != other), min(len(given), len(wanted)))


def refused(typed, usual, small, failing):
    """A result: each allocation after the first place is shown refused, over the small record."""
    with tempfile.TemporaryDirectory(prefix="rings-") as folder:
        case = Case(typed.run(), folder, small, failing)
        (_, before), (whole, count) = case.counted(b""), case.counted()
        ends = [case.ended(REFUSED_ALLOCATION=number) for number in range(before + 1, count + 1)]
    without = functools.cache(lambda at: answers(usual, typed.run(at)))
    why = [] if blocks(*whole) == answers(usual, typed.run()) and ends else ["a whole run is another over the usual record, or takes no memory"]
    kinds = [how_it_goes_on(typed, it, whole, without) for it in ends]
    why += [f"allocation {at}: {kind}" for at, kind in enumerate(kinds, before + 1) if kind not in KINDS]
    told = ", ".join(f"{kinds.count(it)} {it}" for it in KINDS)
    return Result(f"program {typed.number}: each of {len(ends)} allocations refused: {told}", not why, why)


SAME, ENDS, ASKED, NOT_SET = "answered as ever", "ending there", "with an answer that memory was wanting", "with a value that is not set"
KINDS = (SAME, ENDS, ASKED, NOT_SET)


def how_it_goes_on(typed, end, whole, without):
    """How a run with a refused allocation goes on: as a whole run does, or as one without a line, by what is shown for each."""
    one, other = (without_copies(it[1]) for it in (end, whole))
    if (end[0], one, end[2]) == (whole[0], other, whole[2]):
        return SAME
    if (end[0], end[2]) == (2, MEMORY) and other.startswith(one):
        return ENDS
    given, wanted = blocks(*end), blocks(*whole)
    at = first_other(given, wanted)
    if at < len(given) and MEMORY_WANTED.search(given[at]):
        if given[at + 1 :] == wanted[at + 1 :]:
            return ASKED
        left = without(at)
        if given[at].endswith(left[at]) and given[at + 1 :] == left[at + 1 :]:
            return NOT_SET
    return f"behind line {at + 1}, {typed.lines[min(at, len(typed.lines) - 1)]}: {given[at : at + 2]}"


def told_of_all(compared):
    """A result for each program, and one for what they do together."""
    found, changes = sum(it.found for it in compared), sum(it.changes for it in compared)
    is_enough = found >= LEAST_FOUND and changes >= LEAST_ANSWERS
    why = [] if is_enough else [f"{found} steps are gone to, and {changes} answers are new: {LEAST_FOUND} and {LEAST_ANSWERS} are wanted"]
    return [*(it.result() for it in compared), Result(f"{found} steps are gone to, and {changes} answers are new", is_enough, why)]


def check(root):
    """A result for each text that is turned: it stands once in its file."""
    return [Result(f"{NAME}: {it.file}", not why, why) for it in TURNS for why in [it.faults(root)]]


def with_small_rings(root, folder):
    """The path of the program with the small record, built in a folder; and why there is none if there is none."""
    try:
        return turned.built(root, pathlib.Path(folder), CRATE, TURNS), []
    except turned.NotTurned as why:
        return None, str(why).splitlines()


def compared_by(usual, small, failing):
    """The results, given both programs and the library that makes things fail."""
    compared = side_by_side(lambda number: Compared(Typed(number), usual, small), range(PROGRAMS))
    few = side_by_side(lambda number: refused(Typed(number, FEW), usual, small, failing), range(REFUSED))
    return [*told_of_all(compared), *few]


def results(root, usual):
    """The results of all: the program with the small record is built first, and then the other one is waited for."""
    with tempfile.TemporaryDirectory(prefix="rings-") as folder:
        small, why = with_small_rings(root, folder)
        failing, (program, missing) = hostile.library(folder), usual()
        if small is None or program is None or failing is None:
            return [Result(NAME, False, [*why, *missing, *([] if failing else [hostile.NO_LIBRARY])])]
        return compared_by(program, small, failing)
