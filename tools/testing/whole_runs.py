"""Runs longer than the machine's own record, at the prompt: going back shows at each place what was shown there going forward.

The places are some ten thousand steps apart, so that going back begins again at copies and does the events from there on, pokes among them.
"""

import pathlib
import random
import re
import subprocess
import tempfile

from . import kernels, large
from .calls import go_on, side_by_side
from .tried import SECONDS, Result

NAME = "rinddecade, whole runs"
SEEDS = range(12)
# Eight steps a turn: a sum in all lanes, a call, an array, and a place where lanes part.
SOURCE = b"""uniform int turns;
uniform int kept[5];
int sum;
int mixed(int x) {
    return (x ^ sum) & 1023;
}
export void go() {
    for (uniform int i = 0; i < 60000; i += 1) {
        turns = i;
        sum += programIndex + i;
        if (programIndex < (i & 3)) { sum -= kept[i & 3]; }
        int y = mixed(i);
        kept[i & 3] = reduce_add(y);
    }
    turns = turns / (kept[4] - kept[4]);
}
"""
SHOWN = ("turns", "sum", "kept")
LOOK = "look"
MOST = ["--steps", "10000000"]
# Five steps a turn. The eighth turn spoils the divisor, and the division behind the last one faults.
TURNS, SPOILED = 1_000_000, 7
SPOILT = f"""uniform int divisor = 5;
uniform int total;
export void go() {{
    uniform int i = 0;
    while (i < {TURNS}) {{
        if (i == {SPOILED}) {{ divisor = 0; }}
        total += i;
        total ^= 3;
        i += 1;
    }}
    total = total / divisor;
}}
"""
# Before the turns there is one step; then a spoiled divisor, and the question that ends the loop.
FAULT = (11, 5 * TURNS + 3)
SPOILS = (6, 1 + 5 * SPOILED + 2)
# As many words as the arrays of a file may have, none of which a step sets; two steps a turn. The machine's own record is taken back in so many
# seconds of the processor, and in a hundred times as many where each of its steps writes all words.
MANY = f"""uniform int8 words[{1 << 20}];
uniform int turns;
export void go() {{
    for (;;) turns += 1;
}}
"""
RECORD, RECORD_SECONDS = 65_536, 2
# At four lanes its run is the longest of the kernels.
LONGEST = "sudoku"
# What stands between two rows of lanes or elements.
ROW = re.compile(rb"\n\[\d+\]")
STEP = re.compile(rb"^(?:.*: )?\w+ at \S+?:(\d+):\d+,(?: depth \d+,)? step (\d+), lanes", re.M)
PLACE = re.compile(rb"^(?:.*: )?(\w+) at \S+?:(\d+):(\d+),(?: (?:step|depth) \d+,)* lanes ([#.]+)$", re.M)


def plan(seed):
    """Moves of some ten thousand steps, with a value that is set before some of them."""
    draws = random.Random(seed)
    steps = [draws.choice((1, 17, 4_001, 9_973, 30_011, 65_536, 70_001)) for _ in range(draws.randrange(4, 7))]
    pokes = [draws.choice((None, "sum = 7", "sum[2] = -40", "kept[1] = 99", "turns = 3")) for _ in steps]
    return list(zip(steps, pokes))


def script(moves):
    """Lines that go forward by the moves, look, and go back over them and look again: the looks come in opposite order."""
    look = [f"echo {LOOK}", *(f"print {it}" for it in SHOWN)]
    forward = [line for steps, poke in moves for line in (*look, *([f"set var {poke}"] if poke else []), f"step {steps}")]
    back = [line for steps, poke in reversed(moves) for line in (f"reverse-step {steps}", *(["undo"] if poke else []), *look)]
    return [*forward, *look, *look, *back]


def told(program, lines, folder, width, source=SOURCE, words=()):
    pathlib.Path(folder, "long.ispc").write_bytes(source)
    words = [program, "debug", "long.ispc", "--width", str(width), *words]
    return subprocess.run(words, input="\n".join(lines).encode() + b"\n", capture_output=True, cwd=folder, timeout=float(SECONDS)).stdout


def looks(text):
    """What was printed behind each mark of a look, a variable a line."""
    lines = ROW.sub(b"", text).splitlines()
    return [tuple(lines[at + 1 : at + 1 + len(SHOWN)]) for at, line in enumerate(lines) if line == LOOK.encode()]


def there_and_back(program, seed):
    moves, width = plan(seed), (4, 8, 16)[seed % 3]
    with tempfile.TemporaryDirectory(prefix="whole-") as folder:
        go_on()
        given = looks(told(program, script(moves), folder, width))
    half = len(moves) + 1
    why = [] if len(given) == 2 * half and len({*given}) > len(moves) // 2 else [f"{len(given)} looks, and {2 * half} are wanted, most of them different"]
    why += [f"look {at}: {one} and {other}" for at, (one, other) in enumerate(zip(given[:half], reversed(given[half:]))) if one != other]
    return Result(f"whole run {seed} at {width} lanes: each look back is the look before", not why, why)


def to_the_start(program):
    """From the fault at the end back to the statement that set the value, to the first step, and forward to the fault again."""
    lines = ["continue", "watch kept[4]", "reverse-continue", "info record", "delete", "continue"]
    with tempfile.TemporaryDirectory(prefix="whole-") as folder:
        text = told(program, lines, folder, 4)
    places = [(name.decode(), int(line), int(column)) for name, line, column, _ in PLACE.findall(text)]
    wanted = [("go", 8, 10), ("go", 15, 5), ("go", 8, 10), ("go", 15, 5)]
    why = [] if places == wanted else [f"places {places}, and {wanted} are wanted"]
    if b"0 steps and 0 changes were made" not in text:
        why.append("info record does not say that it is the start")
    return Result("from a fault to the first step and back to it", not why, why)


def in_three_commands(program):
    """From the fault at the end of 5,000,000 steps back to the statement that spoiled the value."""
    with tempfile.TemporaryDirectory(prefix="whole-") as folder:
        go_on()
        text = told(program, ["run", "last divisor", "print i"], folder, 4, SPOILT.encode(), MOST)
    places = [tuple(map(int, it)) for it in STEP.findall(text)]
    why = [] if places[1:] == [FAULT, SPOILS] else [f"places {places}, and behind the first {[FAULT, SPOILS]} are wanted"]
    why += [f"{it} is not said" for it in ("F1 DivideByZero", "divisor = 5 -> 0 by this statement", f"i = {SPOILED}") if it.encode() not in text]
    return Result("from a fault behind 5,000,000 steps to what spoiled the value, in three commands", not why, why)


def beside_many_words(program):
    """The machine's own record is taken back beside a million words: it takes the time of those that were set."""
    lines = f"step {RECORD}\nprint turns\nreverse-step {RECORD}\nprint turns\n"
    with tempfile.TemporaryDirectory(prefix="whole-") as folder:
        file = pathlib.Path(folder, "many.ispc")
        file.write_text(MANY)
        seconds, status, output, _ = large.ended([program, "debug", file], lines.encode(), most=10 * RECORD_SECONDS)
    shown = re.findall(rb"^turns = (\d+)$", output, re.M)
    why = [] if (status, shown) == (0, [b"%d" % (RECORD // 2), b"0"]) else [f"status {status}, and turns = {shown}"]
    why += [f"{seconds:.2f} seconds"] if seconds > RECORD_SECONDS else []
    return Result(f"{RECORD} steps are taken back beside {1 << 20} words", not why, why)


def page_of_endless(program):
    """A page that is cut says of a run how many steps it has still, up to a million."""
    with tempfile.TemporaryDirectory(prefix="whole-") as folder:
        go_on()
        pathlib.Path(folder, "many.ispc").write_text(MANY)
        ran = subprocess.run([program, "page", "many.ispc", "--most", "3", "--elements", "1"], capture_output=True, cwd=folder, timeout=float(SECONDS))
    is_right = ran.returncode == 0 and ran.stderr.startswith(b"note: the page ends at step 4, and the run goes on for more than 1000000 more\n")
    return Result("a page of a run without end", is_right, [f"status {ran.returncode}, {ran.stderr[:200]!r}"])


def from_end_to_start(program, kernel):
    """A kernel's run of 1,500,000 steps is taken back from its end to its start, in one piece and to its middle, and made again."""
    names = kernel.names()
    look = [f"echo {LOOK}", *(f"print {it}" for it in names)]
    way = ["continue", "reverse-continue", "goto 700000", "continue", "goto 700000", "goto 0", "continue"]
    with tempfile.TemporaryDirectory(prefix="whole-") as folder:
        go_on()
        words = ["--input", str(kernel.file("input")), *MOST]
        text = told(program, [*look, *(line for it in way for line in (it, *look))], folder, 4, kernel.file("ispc").read_bytes(), words)
    lines = ROW.sub(b"", text).splitlines()
    shown = [lines[at + 1 : at + 1 + len(names)] for at, line in enumerate(lines) if line == LOOK.encode()]
    if len(shown) != 1 + len(way):
        return Result(f"{kernel.name} from its end to its start", False, [f"{len(shown)} looks, and {1 + len(way)} are wanted"])
    start, end, back, middle, *others = shown
    why = [wrong for name, values in kernel.results.items() for wrong in kernel.wrong_value(name, values, [it.decode() for it in end])]
    why += [] if others == [end, middle, start, end] and back == start and middle not in (start, end) else ["what is shown on one way is not what is shown on another"]
    return Result(f"{kernel.name} from its end to its start, to its middle and forward again", not why, why)


def results(root, program):
    """A result for each plan, one from the end of a run to its start, one of a fault, one of a kernel, one of a run with many words, and one of its page."""
    longest = next(it for it in kernels.kernels(root) if it.name == LONGEST)
    others = [lambda: to_the_start(program), lambda: in_three_commands(program), lambda: from_end_to_start(program, longest)]
    others += [lambda: beside_many_words(program), lambda: page_of_endless(program)]
    return [*side_by_side(lambda seed: there_and_back(program, seed), SEEDS), *side_by_side(lambda one: one(), others)]
