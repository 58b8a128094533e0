"""The kernels of examples/kernels/, on the optimized build: NAME.ispc with the input NAME.input gives the values of NAME.expected at every width.

So does expected.py there, which never asks the program. The commands NAME.commands write NAME.transcript, and from its end each kernel goes
back to its start, or as far as the history reaches, and forward again, over the same places and values.
"""

import re

from . import built, meant
from .calls import side_by_side
from .tool import tool
from .tried import Result, Run

NAME = "examples/kernels"
PAGE = "examples/README.md"
WIDTHS = (4, 8, 16)
OPTIONS = ["--history", "65536", "--steps", "10000000"]

# Its run is longer than any history, and takes tools/meaning minutes.
LONG = "sudoku"

# From where going back ends the run goes on by so many pieces of so many steps, and back; the shortest kernel has a few steps more.
PIECES, STEPS = 16, 13
FORWARD, BACK = [f"step {STEPS}"] * PIECES, [f"reverse-step {STEPS}"] * PIECES
MOVES = ["backtrace", "continue", "reverse-continue", *FORWARD, *BACK, *FORWARD, "continue", "reverse-continue"]
REACHED = "history end: "

OF_THE_FILE = re.compile(r"^uniform [\w ]*?(\w+)(?:\[\d+\])?(?: = [^;]+)?;", re.M)
OTHERS = ("commands", "transcript", "input", "expected", "ispc")


class Kernel:
    """A kernel as it is stored, and as expected.py makes it."""

    def __init__(self, root, made):
        self.name, self.made, self.folder = made.name, made, root / NAME
        self.results = {name: " ".join(map(str, [of] if isinstance(of, int) else of)).split() for name, of in made.results.items()}

    def file(self, kind):
        return self.folder / f"{self.name}.{kind}"

    def is_whole(self):
        return all(self.file(it).is_file() for it in OTHERS)

    def run(self, name, commands, output, words=()):
        files = [self.file(it) for it in ("ispc", "input")]
        arguments = [files[0].name, "--input", files[1].name, *OPTIONS, *words]
        return Run(f"kernel {self.name}{name}", commands, arguments, output, b"", data={it.name: it for it in files})

    def session(self):
        return self.run("", self.file("commands").read_bytes(), self.file("transcript").read_bytes())

    def names(self):
        """The names of its variables of the file."""
        return OF_THE_FILE.findall(self.file("ispc").read_text(encoding="utf-8"))

    def there_and_back(self, width):
        """From its start to its end, back, and forward again, with all variables of the file shown behind each move."""
        names = self.names()
        lines = [line for move in MOVES for line in (move, *(f"print {name}" for name in names))]
        judge = lambda output: self.wrong(output.decode().splitlines(), len(names))
        return self.run(f" at {width} lanes", "".join(f"{it}\n" for it in lines).encode(), judge, ["--width", str(width)])

    def wrong(self, lines, count):
        """What is wrong with the answers to each move and the so many values that are shown behind it."""
        shown = [lines[at : at + 1 + count] for at in range(0, len(lines), 1 + count)]
        if len(shown) != len(MOVES) or len(shown[-1]) != 1 + count:
            return [f"{len(lines)} lines, and {len(MOVES)} answers, each with {count} values, are wanted"]
        start, end, reached, *walked, end_again, reached_again = shown
        forward, back, again = (walked[at : at + PIECES] for at in (0, PIECES, 2 * PIECES))
        first = [reached[0].removeprefix(REACHED), *reached[1:]]
        why = [] if end[0] == "ended" else [f"the run does not end: {end[0]}"]
        why += [wrong for name, values in self.results.items() for wrong in self.wrong_value(name, values, end[1:])]
        why += [] if reached[0].startswith(REACHED) and (first == start or self.name == LONG) else [f"going back ends at {reached[0]}"]
        why += [] if back == [*reversed(forward[:-1]), first] else ["the way back by pieces is another than the way forward"]
        why += [] if again == forward else ["the way forward is another one after going back"]
        return why + ([] if (end_again, reached_again) == (end, reached) else ["the end, or the way back from it, is another the second time"])

    def wrong_value(self, name, values, shown):
        """What is wrong with the value of a variable, which has zeros behind what is expected."""
        came = next((it.split(" = ")[1].split() for it in shown if it.startswith(f"{name} = ")), [])
        is_right = came[: len(values)] == values and not set(came[len(values) :]) - {"0"}
        return [] if is_right else [f"{name} = {' '.join(came)}", f"wanted: {' '.join(values)}"]

    def why_not(self, page):
        """What is wrong with its files."""
        gone = [f"{self.file(it).name} is missing" for it in OTHERS if not self.file(it).is_file()]
        if gone:
            return gone
        why = [] if f"](kernels/{self.name}.ispc)" in page else [f"{PAGE} does not list it"]
        for kind, wanted in (("input", self.made.input()), ("expected", self.made.expected())):
            same = self.file(kind).read_text(encoding="utf-8") == wanted
            why += [] if same else [f"{self.file(kind).name} is not what expected.py makes"]
        return why


def kernels(root):
    return [Kernel(root, it) for it in tool(root, "../examples/kernels/expected.py").kernels()]


def check(root):
    """A result for each kernel: its files are there, its input and results those of expected.py, its answers those of the meaning."""
    found, page = kernels(root), (root / PAGE).read_text(encoding="utf-8")
    results = [Result(f"kernel {it.name}", not why, why) for it in found for why in [it.why_not(page)]]
    results += [meant.judged(it.session()) for it in found if it.is_whole() and it.name != LONG]
    known = {it.file(kind).name for it in found for kind in OTHERS} | {"expected.py"}
    others = [it.name for it in sorted((root / NAME).iterdir()) if it.is_file() and it.name not in known]
    return results + [Result(it, False, ["it belongs to no kernel"]) for it in others]


def runs(root):
    """The longest ones first."""
    whole = [it for it in kernels(root) if it.is_whole()]
    whole.sort(key=lambda it: it.name != LONG)
    return [it.there_and_back(width) for it in whole for width in WIDTHS] + [it.session() for it in whole]


def results(root, program):
    return side_by_side(lambda run: built.ended(program, run), runs(root))
