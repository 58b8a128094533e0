"""The built program where things fail: each of its allocations is refused, its devices fail after each byte, its sources are damaged.

Each is a run of an example or of a worked row; its devices also fail in the session with an answer of each kind. Whatever fails, the program
says so in the words of its pages, and nothing that it wrote before is wrong.
"""

import os
import pathlib
import re
import subprocess
import tempfile

from . import examples, kinds, worked_rows
from .calls import go_on
from .tried import SECONDS, Result, Run, laid

LIBRARY = pathlib.Path(__file__).with_name("failing.c")
NO_LIBRARY = "cc does not make the library that makes things fail"
MEMORY = (2, b"", b"memory\n")
LEAST = 50  # how often a run of the least example says so
PIECES = 3  # of a run at most so many allocations are done without, where a file is read in smaller pieces
READ_FAULT, WRITE_FAULT = b"read fault\n", b"write fault\n"
DAMAGE = b"\0\xff(}"
GROWING = b"export void go() {\n    int x = 0;\n    x++;\n    x++;\n    x++;\n    x++;\n}\n"
STEPS, GROWTH, BACK = b"step 3\n", b"set record full insn-number-max 6\n", b"step 2\nreverse-step 5\n"
GROWN = b"at 5:5 go depth 1 lanes 1111\nhistory 6\nat 7:1 go depth 1 lanes 1111\nhistory end: at 3:5 go depth 1 lanes 1111\n"
REFUSED = b"at 5:5 go depth 1 lanes 1111\nC12 Memory\nat 7:1 go depth 1 lanes 1111\nhistory end: at 5:5 go depth 1 lanes 1111\n"
GROWS = Run("a history limit that grows", STEPS + GROWTH + BACK, ["growing.ispc", "--history", "2"], data={"growing.ispc": GROWING})
GROWTHS = re.compile(rb"set record full insn-number-max \d+\n")
REFUSAL = re.compile(rb"(\d+):\d+: S\d+ [A-Z]\w+\n|entry: E1 NoEntry\n|input( \d+)?: I\d [A-Z]\w+( \w+)?\n")
NO_END = re.compile(rb"\d+:\d+: S3 Unexpected\n")
NO_ENTRY = b"entry: E1 NoEntry\n"
# Worked rows: with breakpoints and watches; with calls across lanes, at width 8; and with an input.
ROWS = ("BreakpointsAndWatches", "LibraryAcrossLanes", "EntryArray")
DAMAGED_ROWS = ("BreakAndContinue", "Recursion", "LibraryAcrossLanes")


class Case:
    """A run of the program in a folder that has its files, with variables of the library that makes things fail."""

    def __init__(self, run, folder, program, failing):
        self.name, self.folder, self.program, self.failing = run.name, folder, program, failing
        self.arguments, self.commands, self.variables, self.data = run.arguments, run.stdin, {}, run.data
        for name, file in run.data.items():
            laid(file if isinstance(file, bytes) else file.read_bytes(), folder, name)

    def ended(self, commands=None, **variables):
        """The status, the output and the errors of the run, with these variables of the library that makes things fail."""
        variables = {name: str(value) for name, value in (self.variables | variables).items()}
        environment = {"LD_PRELOAD": self.failing, **variables}
        given = self.commands if commands is None else commands
        return self.called(environment, given)

    def called(self, environment, given):
        go_on()
        how = {"cwd": self.folder, "env": environment, "input": given, "capture_output": True, "timeout": float(SECONDS)}
        ran = subprocess.run([self.program, *self.arguments], **how)
        return ran.returncode, ran.stdout, ran.stderr

    def counted(self, commands=None):
        """How the run ends, and how many allocations it makes."""
        with tempfile.NamedTemporaryFile("r") as told:
            return self.ended(commands, ALLOCATIONS_FILE=told.name), int(told.read() or 0)

    def result(self, what, why):
        return Result(f"{self.name}: {what}", not why, why)

    def refusals(self):
        """How the run ends where nothing is refused, and with each of its allocations refused in turn."""
        whole, count = self.counted()
        return whole, [self.ended(REFUSED_ALLOCATION=number) for number in range(1, count + 1)]

    def memory(self):
        """All memory is taken before the first command; or the run goes on without, as where a file is read in smaller pieces."""
        whole, given = self.refusals()
        why = [f"allocation {at}: {it!r}" for at, it in enumerate(given, 1) if it not in (MEMORY, whole)]
        if whole[0] != 0 or given.count(MEMORY) < LEAST or given.count(whole) > PIECES:
            why.append(f"it ends with {whole[0]}, says `memory` {given.count(MEMORY)} times, and goes on {given.count(whole)} times")
        return self.result(f"each of {len(given)} allocations refused", why)

    def commands_without_memory(self):
        """No command takes memory but the growth of the history limit: a run without commands makes as many allocations."""
        (_, none), (_, all_of_them) = self.counted(b""), self.counted(GROWTHS.sub(b"", self.commands))
        return self.result("commands take no memory", [] if none == all_of_them else [f"{all_of_them - none} allocations"])

    def writes(self):
        """Standard output fails after each byte: what it took is what it takes of a whole run."""
        status, output, errors = self.ended()
        why = [] if (status, errors) == (0, b"") and output else [f"a whole run: status {status}, {errors!r}"]
        for number in range(len(output)):
            came = self.ended(WRITTEN_BYTES=number)
            if came != (4, output[:number], WRITE_FAULT):
                why.append(f"after {number} bytes: {came!r}")
        return self.result(f"a write that fails after each of {len(output)} bytes", why)

    def reads(self):
        """Standard input fails after each byte: the whole lines before are answered."""
        why = []
        for number in range(len(self.commands)):
            whole = self.commands[: self.commands.rfind(b"\n", 0, number) + 1]
            wanted = (3, self.ended(whole)[1], READ_FAULT)
            came = self.ended(READ_BYTES=number)
            if came != wanted:
                why.append(f"after {number} bytes: {came!r}, and not {wanted!r}")
        return self.result(f"a read that fails after each of {len(self.commands)} bytes", why)

    def single_bytes(self):
        """Devices that move one byte a call change nothing."""
        same = self.ended(SINGLE_BYTES=1) == self.ended()
        return self.result("a byte a read and write", [] if same else ["it answers otherwise"])

    def is_report(self):
        return "--lane-pure" in self.arguments

    def source(self):
        content = self.data[self.arguments[0]]
        return content if isinstance(content, bytes) else content.read_bytes()

    def of_source(self, text):
        """How a run of another source ends, after one step."""
        pathlib.Path(self.folder, self.arguments[0]).write_bytes(text)
        return self.called({}, b"step\n")

    def damaged(self):
        """Each front of the source, and the source with each byte changed: a run, or a refusal that has a place in the text."""
        source = self.source()
        texts = [source[:at] for at in range(len(source))]
        texts += [source[:at] + bytes([byte]) + source[at + 1 :] for at in range(len(source)) for byte in DAMAGE]
        ends = [(text, self.of_source(text)) for text in texts]
        self.of_source(source)
        why = [f"{text!r}: status {end[0]}, {end[1]!r}, {end[2]!r}" for text, end in ends if not self.is_judged(text, *end)]
        return self.result(f"{len(texts)} damaged sources", why)

    def is_judged(self, text, status, output, errors):
        """Whether it is an answer, or a report, and no refusal; or a refusal alone, at a line of the text or just past its last one."""
        if status == 0:
            return errors == b"" and (output != b"" or self.is_report())
        said = REFUSAL.fullmatch(errors)
        if status != 2 or output or not said:
            return False
        return said[1] is None or int(said[1]) <= text.count(b"\n") + 2

    def fronts(self):
        """Each front of the source without its last brace: the empty one has no entry, and any other breaks off where something has to follow."""
        source, why = self.source(), []
        for at in range(source.rindex(b"}") + 1):
            status, output, errors = self.of_source(source[:at])
            is_wanted = NO_END.fullmatch(errors) if at else errors == NO_ENTRY
            if (status, output) != (2, b"") or not is_wanted:
                why.append(f"{source[:at]!r}: status {status}, {output!r}, {errors!r}")
        self.of_source(source)
        return self.result("each front of the source", why)


MEMORY_OF_RUNS, DEVICES_OF_RUNS = (Case.memory, Case.commands_without_memory), (Case.writes, Case.reads, Case.single_bytes)
DAMAGE_OF_RUNS = (Case.damaged, Case.fronts)


def task(run, tried, program, failing):
    """What is tried with a run, in a folder of its own, as a call that gives the result."""

    def done():
        with tempfile.TemporaryDirectory(prefix="stored-") as folder:
            return [tried(Case(run, folder, program, failing))]

    return done


def of_examples(root):
    """A run of each example, and what is tried with it."""
    for run in examples.runs(root):
        if run.arguments and run.arguments[0] in run.data:
            is_report = "--lane-pure" in run.arguments
            yield run, (Case.memory, *([] if is_report else [Case.commands_without_memory, *DEVICES_OF_RUNS]), Case.damaged)


def of_rows(root):
    """A run of some worked rows, and what is tried with each."""
    for row in worked_rows.rows(root):
        source, given = row.parts[0]
        tried = [*MEMORY_OF_RUNS, *DEVICES_OF_RUNS] if row.name in ROWS else []
        tried += [Case.damaged] if row.name in DAMAGED_ROWS else []
        tried += [Case.fronts] if row.name == "StepAndBack" else []
        if tried:
            yield worked_rows.run_of(f"row {row.name}", source, given[0]), tried


def tasks(root, program, failing, chosen):
    """What of these is tried with the runs of examples and rows."""
    runs = [*of_examples(root), *of_rows(root)]
    return [task(run, it, program, failing) for run, tried in runs for it in tried if it in chosen]


def with_a_growth_refused(session, tried):
    """What is tried with the session with an answer of each kind, where the last growth of the history limit is refused."""

    def done(case):
        _, before = case.counted(session.commands[: session.commands.index(kinds.GROWTH)])
        case.variables = {"REFUSED_ALLOCATION": before + 1}
        return tried(case)

    return done


def refused_growth(session):
    """Whether all else than that growth is answered as ever."""

    def tried(case):
        came, wanted = case.ended(), (0, session.answers.replace(kinds.GROWN, kinds.REFUSED), b"")
        return case.result("with a growth refused", [] if came == wanted and kinds.REFUSED in came[1] else [f"{came!r}"])

    return with_a_growth_refused(session, tried)


def growth(case):
    """A history limit that grows from 2 to 6: where its memory is refused, two steps are kept as before, and else four."""
    (_, before), (whole, count) = case.counted(STEPS + BACK), case.counted()
    why = [] if whole == (0, GROWN, b"") and before < count else [f"a whole run: {whole!r}, {before} and {count} allocations"]
    for number in range(before + 1, count + 1):
        came = case.ended(REFUSED_ALLOCATION=number)
        why += [] if came == (0, REFUSED, b"") else [f"allocation {number}: {came!r}"]
    return case.result(f"each of {count - before} allocations refused", why)


def library(folder):
    """The library that makes things fail, compiled, or None where there is no compiler."""
    made = os.path.join(folder, "failing.so")
    try:
        words = ["cc", "-O1", "-shared", "-fPIC", "-o", made, LIBRARY, "-ldl"]
        compiled = subprocess.run(words, capture_output=True)
    except FileNotFoundError:
        return None
    return made if compiled.returncode == 0 else None


def memory(root, program, failing):
    """Tasks: each allocation of runs refused."""
    session = kinds.session(root)
    more = [(GROWS, growth), (session.run(), refused_growth(session)), (session.run(), Case.commands_without_memory)]
    return [*tasks(root, program, failing, MEMORY_OF_RUNS), *(task(run, it, program, failing) for run, it in more)]


def devices(root, program, failing):
    """Tasks: the devices of runs fail, of the session with an answer of each kind among them."""
    session = kinds.session(root)
    first = [task(session.run(), with_a_growth_refused(session, it), program, failing) for it in DEVICES_OF_RUNS]
    return [*first, *tasks(root, program, failing, DEVICES_OF_RUNS)]


def damage(root, program, failing):
    """Tasks: the sources of runs are damaged."""
    return tasks(root, program, failing, DAMAGE_OF_RUNS)
