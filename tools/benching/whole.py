"""The time of going back over a run that is longer than the machine's own record, at the prompt of `rinddecade debug`, beside what it may be.

Each time is the least of some rounds. Each run is looked at for what it is to come to.
"""

import os
import pathlib
import subprocess
import tempfile

from testing.whole_runs import FAULT, SPOILS, SPOILT

from . import counted, works
from .desks import MARK, MARK_OF_SCRIPTS, begun, least
from .timed import NotRun

ROUNDS = 3
ALTERNATED = 7
TURNS = 1_999_999
STEPS = works.steps_of_loop(TURNS) + 1  # nearly the 10,000,000 moves that one command makes at most
MIDDLE, SINGLE = STEPS // 2, 1_000
NAME = "long.ispc"
# The last statement of the run sets t, so that going back with its watch goes over that alone; s is set by the first.
TEXT = works.loop(TURNS).replace("uniform int t = 0;\n", "uniform int t = 0;\nuniform int s = 0;\n").replace("int i = 0;\n", "s = 1;\nint i = 0;\n")
TO_THE_END = [f"step {STEPS}"]
COUNTED_STEPS = 50_000  # of which the instructions are counted
OTHERS = 200  # accesses that a program has beside those that its run makes
BACK, ONE_BY_ONE = ["watch s", "reverse-continue", "delete"], ["reverse-step"] * SINGLE
# From where single steps are made.
PLACES = {"the end": STEPS, "three quarters": 3 * STEPS // 4, "the middle": MIDDLE, "a quarter": STEPS // 4, "the start": 2 * SINGLE}
# A loop of ten steps a turn, whose line with a breakpoint comes 100,000 times in 1,000,000 steps.
CONDITION_TURNS, CONDITION_LINE = 100_000, 6
CONDITION_STEPS = 10 * CONDITION_TURNS + 4
CONDITION_TEXT = f"export void go() {{\nint i = 0;\nint x = 0;\nwhile (i < {CONDITION_TURNS}) {{\nx += i;\n" + "x ^= 5;\nx += 7;\n" * 3 + "x -= 3;\ni += 1;\n}\n}\n"
CONDITIONAL, GOES_ON = [f"break {CONDITION_LINE} if i < 0"], ["continue"]
# A loop of five steps a turn in which neither what a watch of a variable shows changes, nor what one of an expression of it does.
STILL_TURNS = 40_000
STILL_STEPS = works.steps_of_loop(STILL_TURNS) + 1
STILL_TEXT = works.loop(STILL_TURNS).replace("int i = 0;\n", "int still = 1;\nint i = 0;\n")
OF_VARIABLE, OF_EXPRESSION = "watch still", "watch still * 3 + programIndex"
# A run to a fault, which the value of a variable near its start leads to.
SPOILT_NAME, BACK_TO_CAUSE = "spoilt.ispc", "last divisor"
(_, FAULT_STEP), (_, CAUSE_STEP) = FAULT, SPOILS
LIBRARY = pathlib.Path(__file__).with_name("allocations.c")


class Figure:
    """What was measured, what it is, and what it may be at most, if that is said."""

    def __init__(self, value, what, most=None, form=".2f"):
        self.value, self.what, self.most, self.form = value, what, most, form

    def line(self):
        aim = "" if self.most is None else f" (aim: at most {self.most:{self.form}}{'' if self.value <= self.most else ', NOT MET'})"
        return f"{self.value:>17,{self.form}} {self.what}{aim}"


def debugged(program, name=NAME):
    return [program, "debug", name, "--steps", "10000000"]


def at_step(number):
    return f"step {number}, lanes".encode()


def way_back(program, folder):
    """The seconds of one run: forward, back to the start, to the middle, and of single steps from each place."""
    with begun(debugged(program), folder) as desk:
        times = [desk.seconds(TO_THE_END, at_step(STEPS)), desk.seconds(BACK, b"watch 1: go at")]
        desk.done([f"goto {STEPS}"], at_step(STEPS))
        times.append(desk.seconds([f"goto {MIDDLE}"], at_step(MIDDLE)))
        desk.done([f"goto {STEPS}"], at_step(STEPS))
        for number in PLACES.values():
            desk.done([f"goto {number}"], at_step(number))
            times.append(desk.seconds(ONE_BY_ONE, at_step(number - SINGLE)))
    return times


def back(program, folder):
    """How it goes back over the whole run."""
    forward, to_the_watch, to_the_middle, *single = least(way_back(program, folder) for _ in range(ROUNDS))
    yield Figure(forward, f"seconds forward over {STEPS:,} steps")
    yield Figure(to_the_watch / forward, "times these for reverse-continue from the end to a watch at the start", 3)
    yield Figure(to_the_middle, "seconds for goto from the end to the middle", 1)
    yield Figure(to_the_middle / forward, "times the way forward, for that goto")
    for name, seconds in zip(PLACES, single):
        yield Figure(seconds, f"seconds for {SINGLE:,} steps back from {name}, one by one", 1)


def from_fault(program, folder):
    """The seconds of one run to a fault, back to the statement that spoiled the value, and from the fault to that step by its number."""
    with begun(debugged(program, SPOILT_NAME), folder) as desk:
        forward = desk.seconds(["continue"], at_step(FAULT_STEP))
        to_the_cause = desk.seconds([BACK_TO_CAUSE, "print i"], at_step(CAUSE_STEP))
        desk.done(["continue"], at_step(FAULT_STEP))
        return forward, to_the_cause, desk.seconds([f"goto {CAUSE_STEP}"], at_step(CAUSE_STEP))


def to_what_spoiled(program, folder):
    """How it goes from a fault to its cause, in three commands."""
    pathlib.Path(folder, SPOILT_NAME).write_text(SPOILT)
    forward, to_the_cause, by_number = least(from_fault(program, folder) for _ in range(ROUNDS))
    yield Figure(forward, f"seconds forward over {FAULT_STEP:,} steps to a fault")
    yield Figure(to_the_cause / forward, f"times these for `{BACK_TO_CAUSE}` from there to step {CAUSE_STEP}, which spoiled it, and `print i`", 3)
    yield Figure(by_number / forward, f"times these for `goto {CAUSE_STEP}` from there")


def by_itself(words, folder, mark):
    """The seconds of a program's own code for the steps to the end."""
    with begun(words, folder, mark=mark) as desk:
        before = desk.used_by_itself()
        desk.done(TO_THE_END)
        return desk.used_by_itself() - before


def beside_plain(program, script, folder):
    """How it goes forward beside the machine without a whole run: by the least times, and in the middle one of the rounds, which alternate."""
    plain = [script, NAME, "--history", "65536", "--steps", "10000000"]
    rounds = [(by_itself(debugged(program), folder, MARK), by_itself(plain, folder, MARK_OF_SCRIPTS)) for _ in range(ALTERNATED)]
    own, other = least(rounds)
    yield Figure(own / other, "times the seconds of the program for scripts, which keeps 65,536 steps", 1.05)
    yield Figure(sorted(one / other for one, other in rounds)[ALTERNATED // 2], f"times these in the middle one of {ALTERNATED} rounds")


def instructions(words, steps, folder):
    """The instructions of a program that does so many steps, counted by valgrind."""
    run = subprocess.run([*counted.VALGRIND, *words], input=f"step {steps}\n".encode(), capture_output=True, cwd=folder)
    found = counted.COUNTED.search(run.stderr)
    if run.returncode or not found:
        raise NotRun(f"status {run.returncode}, and no count of instructions")
    return int(found[1])


def counted_beside_plain(program, script, folder):
    """The instructions of a step forward beside those without a whole run: the same on a busy machine as on an idle one."""
    plain = [script, NAME, "--history", "65536", "--steps", "10000000"]
    own, other = (instructions(it, 1 + COUNTED_STEPS, folder) - instructions(it, 1, folder) for it in (debugged(program), plain))
    yield Figure(own / other, f"times the instructions of the program for scripts, over {COUNTED_STEPS:,} steps (by valgrind)", 1.05, ".3f")


def copies(program, folder):
    """How many copies there are, and what one takes: of the large allocations of one size those that are the most at one time."""
    library, told = pathlib.Path(folder, "allocations.so"), pathlib.Path(folder, "allocations")
    subprocess.run(["cc", "-O1", "-shared", "-fPIC", "-o", library, LIBRARY, "-ldl"], check=True)
    with begun(debugged(program), folder, environment={"LD_PRELOAD": str(library), "ALLOCATIONS_FILE": str(told)}) as desk:
        desk.done(TO_THE_END)
    size, made, most = max((tuple(map(int, it.split())) for it in told.read_text().splitlines()), key=lambda it: it[2])
    yield Figure(most, f"copies at most at one time, of {made} that are made over the run", form=".0f")
    yield Figure(size / 1024, "kilobytes a copy", form=".0f")


def of_profile(program, folder, name, steps, words=()):
    """The seconds of a whole run of a profile."""
    words = [program, "profile", name, "--most", str(steps), *words]
    ended = subprocess.Popen(words, cwd=folder, env={}, stdout=subprocess.PIPE)
    text = ended.stdout.read()
    _, status, used = os.wait4(ended.pid, 0)
    ended.returncode = os.waitstatus_to_exitcode(status)
    if ended.returncode or str(steps).encode() not in text:
        raise NotRun(f"a profile ends with status {ended.returncode}")
    return used.ru_utime + used.ru_stime


def of_run(program, folder, name, steps, words=()):
    """The seconds of a whole run to the end."""
    with begun([*debugged(program, name), *words], folder) as desk:
        desk.done([f"step {steps}"])
        return desk.used()


def profile(program, folder):
    """What a profile of the run takes beside the run."""
    run, counted = least((of_run(program, folder, NAME, STEPS), of_profile(program, folder, NAME, STEPS)) for _ in range(ROUNDS))
    yield Figure(counted, f"seconds for a profile of {STEPS:,} steps", 6)
    yield Figure(counted / run, "times the run, for its profile", 2)


def by_access(program, folder):
    """What a profile of accesses takes beside the run, where two of five steps have one: of a whole run, of shorter ones by wider gangs, and of one
    of a program with many others."""
    for width, turns, others in ((4, TURNS, 0), (8, TURNS // 5, 0), (16, TURNS // 5, 0), (4, TURNS // 5, OTHERS)):
        name, steps, words = f"touching_{turns}_{others}.ispc", works.steps_of_loop(turns) + 1, ["--width", str(width)]
        pathlib.Path(folder, name).write_text(works.touching(turns, others))
        counting = [*words, "--by", "access"]
        run, counted = least((of_run(program, folder, name, steps, words), of_profile(program, folder, name, steps, counting)) for _ in range(ROUNDS))
        if turns == TURNS:
            yield Figure(counted, f"seconds for a profile by access of {steps:,} steps, {width} lanes", 6)
        beside = f", beside {others} accesses that are not made" if others else ""
        yield Figure(counted / run, f"times the run, for its profile by access, {width} lanes{beside}", 2)


def counted_profiles(program, folder):
    """The instructions of a profile beside those of the run, where two of five steps have an access."""
    name = "counted.ispc"
    pathlib.Path(folder, name).write_text(works.touching(COUNTED_STEPS // 5))
    for width in (4, 8, 16):
        words = ["--width", str(width)]
        run = [*debugged(program, name), *words]
        of_steps = instructions(run, 1 + COUNTED_STEPS, folder) - instructions(run, 1, folder)
        for rows in ("line", "access"):
            profiled = [program, "profile", name, *words, "--by", rows, "--most"]
            of_counts = instructions([*profiled, str(1 + COUNTED_STEPS)], 0, folder) - instructions([*profiled, "1"], 0, folder)
            yield Figure(of_counts / of_steps, f"times the instructions of the run, for its profile by {rows}, {width} lanes (by valgrind)", 2)


def with_condition(program, folder):
    """The seconds of a run without a condition and with one."""
    name = "condition.ispc"
    pathlib.Path(folder, name).write_text(CONDITION_TEXT)
    with begun(debugged(program, name), folder) as desk:
        plain = desk.seconds(GOES_ON, b"has ended")
        desk.done(["goto 0"])
        if b"breakpoint 1 at line" not in desk.done(CONDITIONAL):
            raise NotRun("breakpoints have no conditions")
        return plain, desk.seconds(GOES_ON, b"has ended")


def condition(program, folder):
    """What a condition that is never true takes, on a line that comes in each tenth step."""
    plain, with_it = least(with_condition(program, folder) for _ in range(ROUNDS))
    yield Figure(with_it, f"seconds for continue over {CONDITION_STEPS:,} steps with a condition that is asked {CONDITION_TURNS:,} times", 1)
    yield Figure((with_it - plain) / CONDITION_TURNS / (plain / CONDITION_STEPS), "times a step, for a condition", 10)


def with_watch(program, folder, watch):
    """The seconds of a run with a watch that never stops it."""
    name = "still.ispc"
    pathlib.Path(folder, name).write_text(STILL_TEXT)
    with begun(debugged(program, name), folder) as desk:
        desk.done(["step", watch], b"watch 1: ")
        return desk.seconds(["continue"], b"has ended")


def watched(program, folder):
    """What a watch of an expression takes beside one of a variable."""
    of_variable, of_expression = least((with_watch(program, folder, OF_VARIABLE), with_watch(program, folder, OF_EXPRESSION)) for _ in range(ROUNDS))
    yield Figure(of_variable, f"seconds for continue over {STILL_STEPS:,} steps with a watch of a variable of a function", 1)
    yield Figure(of_expression / of_variable, f"times these with `{OF_EXPRESSION}`")


def told(program, script):
    """The figures of the prompt's program, beside the program for scripts where that is there; and why some are not there."""
    with tempfile.TemporaryDirectory(prefix="bench-whole-") as folder:
        pathlib.Path(folder, NAME).write_text(TEXT)
        parts = [back(program, folder), *([beside_plain(program, script, folder)] if script else [])]
        parts += [counted_beside_plain(program, script, folder)] if script and counted.is_there() else []
        parts += [counted_profiles(program, folder)] if counted.is_there() else []
        for part in (*parts, to_what_spoiled(program, folder), copies(program, folder), profile(program, folder), by_access(program, folder), condition(program, folder), watched(program, folder)):
            try:
                yield from part
            except (NotRun, OSError, subprocess.CalledProcessError) as why:
                yield str(why)
