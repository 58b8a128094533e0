"""The pictures of examples/: `rinddecade picture` of NAME.ispc, with NAME.args, NAME.input and NAME.watched if there, writes NAME.svg.

Those of other sources show each step, lane, call and value that tools/meaning works out, and how the run ends.

Every picture is well-formed XML, also that of a source with bytes that are no text.
"""

import bisect
import re
import xml.etree.ElementTree as trees

from meaning.debugging import Debugger, Refused
from meaning.values import Fault

from . import examples
from .tried import Result, Run

CRATE = "rinddecade"

# The options that a picture has not, and the examples of which they are: nothing is run.
REPORTED = "--lane-pure"

# A source with every kind of byte that XML has not, in comments, and a name that begins with a word of the language.
ODD = b'export void go() { // <&>"\' \x00\x07\x7f\x80\xff \xc3\xa9 \xef\xbf\xbf \xed\xa0\x80\r\n\tint breaks = 1;\n\tbreaks += 1; // ' + b"\xe2\x82\xac" * 60 + b"\n}\n"

SVG = "{http://www.w3.org/2000/svg}"

# Sources whose pictures tools/meaning works out.
LANES = """export void go() {
    int x = programIndex * programIndex - 5;
    bool b = x < 4;
    while (x > 0) {
        x -= 7;
        if (x == 4) break;
    }
    int64 y = x;
    y = y * 1000000000000;
    if (b) return;
    b = !b;
    y++;
}
"""

OF_LANES = [(4, "x"), (8, "y"), (16, "x"), (16, "b"), (8, "b[3]"), (16, "x[15]"), (4, "go")]

ELEMENTS = """uniform int8 t[20];
uniform int64 sum;
uniform unsigned int64 most;
uniform unsigned int8 byte;
uniform bool odd;
export void go() {
    t[2] = 30;
    t[0] = -128;
    t[19] = 7;
    t[2] = t[0];
    t[1] = 12;
    odd = t[1] > t[2];
    sum = t[2];
    sum = sum * 3 - 1;
    most = most - 1;
    byte = byte - 1;
    odd = !odd;
}
"""

OF_ELEMENTS = ["t", "t[2]", "t[0]", "t[19]", "t[20]", "sum", "most", "byte", "odd"]

DEEP = """int f(int k) {
    int r = k + 1;
    if (r > 5) return r;
    return f(r);
}
export void go() {
    int x = f(programIndex);
    x -= 9;
}
"""

# The same to depth 15, and the depth from which on the ground stays as dark.
DEEPEST, DARKEST = DEEP.replace("r > 5", "r > 13"), 8

HALT = "export void go() {\n    int x = 7;\n    x = x / (programIndex - 6);\n}\n"

# Lanes that wait over several rows of a loop, in the loop and behind it.
LONG = """export void go() {
    int x = programIndex;
    for (uniform int i = 0; i < 40; i++) {
        if (x == 1) {
            x += 7;
        } else if (x > 12) {
            x -= i;
            continue;
        }
        x++;
    }
    x = programIndex;
    while (x < 30) x += programIndex + 2;
    x = 0;
}
"""

OF_LONG = [(4, 400, 1, 60), (8, 400, 1, 7), (16, 400, 1, 10_000_000), (8, 100, 33, 20), (4, 4, 21, 2), (16, 400, 1, 3)]

NOT_SO_FAR = b"error: --from: the run ends before this step, or --steps is less\n"

# The step of a way's end that stands at an edge of a row.
EDGE = -1

# The space above the baseline of the lanes' names, within a row, and the width of a digit.
ABOVE, DIGIT = 22, 6

MARK = re.compile(r"step (\d+), line (\d+), lane (\d+)")
MOST_VALUES = 16

# After so many lanes the colours are the same again, and so is that of their values; values of no lane have none of them.
COLOURS, NO_LANE = 8, -1


def options(root, name):
    """The words behind an example's name that its picture is drawn with."""
    file = root / f"examples/{name}.watched"
    watched = ["--watch", file.read_text(encoding="utf-8").strip()] if file.is_file() else []
    return examples.arguments(root, name) + watched


def is_drawn(root, name):
    return REPORTED not in examples.arguments(root, name)


def check(root):
    """A result for each example: its picture is there, and is well-formed."""
    return [Result(f"picture of {name}", not why, why) for name in examples.names(root) for why in [why_not(root, name)]]


def why_not(root, name):
    file = root / f"examples/{name}.svg"
    if not is_drawn(root, name):
        return [f"{name} is not run, so it has no picture"] if file.is_file() else []
    return is_picture(file.read_bytes()) if file.is_file() else [f"{name}.svg is missing"]


def is_picture(text):
    """What is wrong with a text as a picture."""
    try:
        tree = trees.fromstring(text)
    except trees.ParseError as fault:
        return [f"it is not well-formed: {fault}"]
    return [] if tree.tag == f"{SVG}svg" else [f"its root is {tree.tag}"]


def has_text(*wanted):
    """Whether a text is a picture in which these texts of a source stand."""

    def judged(text):
        why = is_picture(text)
        if why:
            return why
        said = ["".join(it.itertext()) for it in trees.fromstring(text).iter(f"{SVG}text")]
        return [f"no text is {it!r}" for it in wanted if it not in said]

    return judged


def has_titles(*wanted):
    """Whether a text is a picture in which marks have these titles."""

    def judged(text):
        why = is_picture(text)
        if why:
            return why
        said = [it.text for it in trees.fromstring(text).iter(f"{SVG}title")]
        return [f"no title is {it!r}" for it in wanted if it not in said]

    return judged


def runs(root):
    return [run_of(root, it) for it in examples.names(root) if is_drawn(root, it) and (root / f"examples/{it}.svg").is_file()] + other_runs() + meant_runs()


def run_of(root, name):
    source = {f"{name}.ispc": root / f"examples/{name}.ispc"}
    input_words, data = examples.with_input(name, examples.input_of(root, name))
    words = ["picture", f"{name}.ispc", *options(root, name), *input_words]
    return Run(f"picture of {name}", b"", words, (root / f"examples/{name}.svg").read_bytes(), b"", data=source | data)


# Command lines that lead two steps on.
LED = {"one line": b"step 2\n", "lines without their end": b"step\n\nundo\nstep\nstep", "up to quit": b"step\nstep\nquit\nstep\n"}


def other_runs():
    """Sources whose pictures are judged by what stands in them."""
    fault = b"export void go() {\n    int x = 6 / (programIndex - 2);\n}\n"
    first = b"export void go() {\n    int x = programIndex;\n    if (x == 1) return;\n    x++;\n}\n"
    odd = has_text("export void go() { // <&>\"' \ufffd\ufffd\ufffd\ufffd\ufffd \ufffd\ufffd \ufffd\ufffd\ufffd \ufffd\ufffd\ufffd", "    int breaks = 1;")
    steps = [f"step {step}, line {line}, lane {lane}" for step, line, lane in [(1, 2, 0), (3, 3, 1), (4, 4, 3), (5, 5, 1)]]
    late = has_titles("step 2, line 4, lane 3", "step 3, line 5, lane 1")
    return [
        Run("picture of odd bytes", b"", ["picture", "odd.ispc"], odd, b"", data={"odd.ispc": ODD}),
        Run("picture of a fault", b"", ["picture", "fault.ispc"], has_titles("F1 DivideByZero in lane 2"), b"", data={"fault.ispc": fault}),
        Run("picture of a return", b"", ["picture", "first.ispc"], has_titles(*steps), b"", data={"first.ispc": first}),
        Run("picture from behind the end", b"", ["picture", "first.ispc", "--from", "7"], b"", NOT_SO_FAR, 2, {"first.ispc": first}),
        Run("picture from the last step", b"", ["picture", "first.ispc", "--from", "5"], has_titles("step 5, line 5, lane 1"), b"", data={"first.ispc": first}),
        Run("picture from behind --steps", b"", ["picture", "first.ispc", "--from", "5", "--steps", "3"], b"", NOT_SO_FAR, 2, {"first.ispc": first}),
        *(Run(f"picture from where commands led, {name}", b"", ["picture", "first.ispc", "--commands", "two", "--from", "2"], late, b"", data={"first.ispc": first, "two": lines})
          for name, lines in LED.items()),
    ]


# ---- pictures that tools/meaning works out

def seen_of(name, source, width, target, most, first, row):
    """What a picture has to show of a run from a step on, step by step as tools/meaning goes, in rows of so many steps."""
    debugger = Debugger(source, width)
    for _ in range(first - 1):
        debugger.forward()
    seen = {"title": name, "marks": [], "depths": [], "values": [], "fault": []}
    before, names, lines, step, end = [], [], [], first - 1, ""
    while debugger.state.frames and step < first - 1 + most and not end:
        step += 1
        place, lanes = debugger.spot()[:2]
        depth, values = len(debugger.state.frames), values_of(debugger, target)
        if not (step - first) % row:
            before, names, lines = [], [*names, []], [*lines, []]
        seen["marks"] += [(len(lines) - 1, step, place[0], lane) for lane in range(width) if lane in lanes]
        seen["depths"] += [(len(lines) - 1, step, depth)] if depth > 1 else []
        seen["values"] += [(len(lines) - 1, step, number, *it) for number, it in enumerate(values) if before[number : number + 1] != [it]]
        lines[-1].append(place[0])
        before, names[-1] = values, max([names[-1], row_names(target, values)], key=len)
        try:
            debugger.forward()
        except Fault as fault:
            seen["fault"] = [(f"{fault.name} in lane {fault.lane}", [(step, fault.lane)])]
            end = f"fault {fault.name} lane {fault.lane} at step {step}"
    shown = [range(min(it), max(it) + 1) for it in lines] if len(lines) > 1 else [range(1, source.count("\n") + 1)]
    seen["lines"] = [(at, it) for at, of_row in enumerate(shown) for it in of_row]
    seen["lanes"] = [(at, it) for at in range(len(lines)) for it in ["lanes", *map(str, range(width))]]
    seen["numbers"] = numbers_of(first, step, row)
    seen["ways"] = sorted(it for lane in range(width) for it in ways_of(lane, seen, first, row))
    seen["rows"] = [(at, *it) for at, of_row in enumerate(names) for it in of_row]
    seen["end"] = end or f"{'step limit' if debugger.state.frames else 'ended'} after step {step}"
    return seen


def numbers_of(first, last, row):
    """The numbers above the steps: of the first one of a row, and of each fifth one that is three steps behind that one or more."""
    steps = [((step - first) // row, (step - first) % row, step) for step in range(first, last + 1)]
    return [(at, step, str(step)) for at, of_row, step in steps if not of_row or (of_row > 2 and not step % 5)]


def ways_of(lane, seen, first, row):
    """The ways of a lane from step to step, also over the edges of rows, and through a row that shows the line where the lane waits."""
    steps = [(at, step, line) for at, step, line, it in seen["marks"] if it == lane]
    ways = []
    for (at, step, line), (to_row, to_step, _) in zip(steps, steps[1:]):
        kind = "goes" if to_step == step + 1 else "waits"
        if at == to_row:
            ways.append((at, lane, kind, step, to_step))
        else:
            through = [it for it in range(at + 1, to_row) if (it, line) in seen["lines"]]
            ways += [(at, lane, kind, step, EDGE), *((it, lane, "waits", EDGE, EDGE) for it in through), (to_row, lane, kind, EDGE, to_step)]
    return ways


def values_of(debugger, target):
    """What `print` shows of a target, at most 16 values, each with the lane whose colour it has."""
    try:
        variable, first = debugger.target(target, whole_array=True)
    except Refused:
        return []
    shown = debugger.answer(f"print {target}")[0].partition(" = ")[2].split()
    is_of_lanes = variable.rate == "varying" and not variable.is_array
    return [(it, ((first or 0) + row) % COLOURS if is_of_lanes else NO_LANE) for row, it in enumerate(shown[:MOST_VALUES])]


def row_names(target, values):
    """The names of the rows of values, each with the lane whose colour it has."""
    name, bracket, index = target.partition("[")
    first = int(index.strip("]")) if bracket else 0
    return [(f"{name}[{first + row}]" if bracket or len(values) > 1 else name, lane) for row, (_, lane) in enumerate(values)]


def shown_in(text):
    """What a picture shows, and what is wrong with where it stands: each but the title and the end with its row, what stands at no step at step 0."""
    tree = trees.fromstring(text)
    rows = Rows(tree)
    marks, wrong = marks_in(tree, rows)
    steps = {(mark.row, mark.x): mark.step for mark in marks}
    texts = list(tree.iter(f"{SVG}text"))
    values = [it for it in texts if it.get("class") == "value"]
    tops = {row: sorted({int(it.get("y")) for it in values if rows.of(it) == row}) for row in range(len(rows.baselines))}
    inks = {it.get("stroke"): lane for lane, it in enumerate([it for it in legend(tree) if not rows.of(it)][:COLOURS])}
    step_at = lambda it, x: steps.get((rows.of(it), x), 0)
    said = {
        "title": tree.find(f"{SVG}title").text,
        "lanes": [(rows.of(it), it.text) for it in texts if rows.is_above(it) and not it.get("text-anchor")],
        "numbers": [(rows.of(it), step_at(it, int(it.get("x"))), it.text) for it in texts if rows.is_above(it) and it.get("text-anchor")],
        "lines": [(rows.of(it), int(it.text)) for it in texts if it.get("class") == "number" and it.get("text-anchor") == "end"],
        "marks": sorted((mark.row, mark.step, mark.line, mark.lane) for mark in marks),
        "ways": sorted(ways_in(tree, rows, marks)),
        "depths": [(rows.of(it), step_at(it, int(it.get("x")) + int(it.get("width")) // 2), depth) for it, depth in depths_in(tree)],
        "values": sorted(
            (rows.of(it), step_at(it, int(it.get("x"))), tops[rows.of(it)].index(int(it.get("y"))), *word_of(it, inks)) for it in at(values, "middle")
        ),
        "rows": [(rows.of(it), *word_of(it, inks)) for it in at(values, "end")],
        "fault": faults_in(tree, marks),
        "end": texts[-1].text,
    }
    return said, wrong + legend_faults(tree, marks, rows) + shade_faults(tree)


class Rows:
    """Where the rows of a picture stand: each begins with the names of the lanes."""

    def __init__(self, tree):
        self.baselines = [int(it.get("y")) for it in tree.iter(f"{SVG}text") if it.text == "lanes" and it.get("class") == "number"]

    def at(self, y):
        return bisect.bisect(self.baselines, y + ABOVE) - 1

    def of(self, element):
        return self.at(int(element.get("y") or element.get("cy")))

    def is_above(self, element):
        """Whether a text stands above the lines of its row."""
        return int(element.get("y")) in self.baselines


def ways_in(tree, rows, marks):
    """The ways between the marks of a lane, or from and to an edge of a row."""
    steps = {(mark.lane, mark.x, mark.y): mark.step for mark in marks}
    width = len(legend(tree)) // len(rows.baselines)
    groups = [it for it in tree.iter(f"{SVG}g") if it.get("stroke") != "#ffffff"]
    for number, group in enumerate(groups):
        for it in group:
            if it.get("class") not in ("goes", "waits"):
                continue
            points = [it.get("x1"), it.get("y1"), it.get("x2"), it.get("y2")] if it.tag == f"{SVG}line" else re.findall(r"\d+", it.get("points"))
            x, y, to_x, to_y = map(int, [*points[:2], *points[-2:]])
            lane = number % width
            yield number // width, lane, it.get("class"), steps.get((lane, x, y), EDGE), steps.get((lane, to_x, to_y), EDGE)


def at(elements, anchor):
    return [it for it in elements if it.get("text-anchor") == anchor]


def word_of(element, inks):
    """A value or the name of its row, with the lane whose colour it has."""
    return element.text, inks.get(element.get("fill"), NO_LANE)


def legend(tree):
    """The dots at the names of the lanes."""
    return [it for it in tree if it.tag == f"{SVG}circle"]


class Mark:
    """A dot or a bar, with its step, line and lane, its point and its colours."""

    def __init__(self, element, colours, rows):
        self.step, self.line, self.lane = map(int, MARK.fullmatch(element.find(f"{SVG}title").text).groups())
        point = (element.get("cx"), element.get("cy")) if element.get("cx") else re.match(r"M(\d+) (\d+)", element.get("d")).groups()
        self.x, self.y = map(int, point)
        self.row = rows.at(self.y)
        self.colours = colours


def marks_in(tree, rows):
    """The marks of all lanes; what is wrong where those of one step are not below one another, those of a lane not in the row of their line."""
    marks = []
    for group in tree.iter(f"{SVG}g"):
        titled = [it for it in group if it.find(f"{SVG}title") is not None and MARK.fullmatch(it.find(f"{SVG}title").text)]
        marks += [Mark(it, (group.get("fill"), group.get("stroke")), rows) for it in titled]
    columns = sorted({(mark.step, mark.row, mark.x) for mark in marks})
    lines = sorted({(mark.row, mark.line, mark.lane, mark.y) for mark in marks})
    lefts, tops = [it for _, *it in columns], [y for *_, y in lines]
    wrong = [] if lefts == sorted(map(list, set(map(tuple, lefts)))) else ["the steps are not from left to right"]
    return marks, wrong + ([] if tops == sorted(set(tops)) else ["the lines and their lanes are not from top to bottom"])


def depths_in(tree):
    """The grounds of steps in calls, each with its depth."""
    titled = [(it, it.find(f"{SVG}title")) for it in tree.iter(f"{SVG}rect")]
    return [(it, int(title.text.split()[1])) for it, title in titled if title is not None and title.text.startswith("depth ")]


def faults_in(tree, marks):
    """The red dots, each with its title, and the steps and lanes of the marks under it."""
    dots = [it for it in tree.iter(f"{SVG}circle") if it.find(f"{SVG}title") is not None and " in lane " in it.find(f"{SVG}title").text]
    under = lambda it: [(mark.step, mark.lane) for mark in marks if (mark.x, mark.y) == (int(it.get("cx")), int(it.get("cy")))]
    return [(it.find(f"{SVG}title").text, under(it)) for it in dots]


def legend_faults(tree, marks, rows):
    """What is wrong with the names of the lanes: each has the colours of its marks, and no two the same; none is at a step's number."""
    texts = [it for it in tree if it.tag == f"{SVG}text" and rows.is_above(it)]
    wrong = []
    for row in range(len(rows.baselines)):
        names = [it for it in legend(tree) if rows.of(it) == row]
        colours = [(it.get("fill"), it.get("stroke")) for it in names]
        numbers = [(int(it.get("x")), len(it.text)) for it in texts if rows.of(it) == row and it.get("text-anchor") == "middle"]
        wrong += [] if len(set(colours)) == len(colours) else ["two lanes have the same colours"]
        wrong += [f"lane {it.lane} has other colours at step {it.step}" for it in marks if it.row == row and colours[it.lane : it.lane + 1] != [it.colours]]
        wrong += [f"the name of lane {lane} is at a step's number" for lane, it in enumerate(names) if numbers and int(it.get("cx")) + 16 > min(numbers)[0]]
        wrong += [f"two numbers of steps are at {x}" for (x, long), (at, other) in zip(numbers, numbers[1:]) if at - x < (long + other) * DIGIT // 2]
    return wrong


def shade_faults(tree):
    """What is wrong with the grounds of steps in calls: a deeper one is darker, up to depth 8, and none so dark that the lines on it are not read."""
    found = sorted({(depth, float(it.get("fill-opacity"))) for it, depth in depths_in(tree)})
    shades, deepest = [shade for depth, shade in found if depth <= DARKEST], {shade for depth, shade in found if depth >= DARKEST}
    wrong = [] if shades == sorted(set(shades)) else ["a deeper call is not darker"]
    return wrong + ([] if len(deepest) <= 1 and all(shade < 0.5 for shade in [*shades, *deepest]) else ["a deep call is too dark"])


def is_meant(name, source, width, target, most, first, row):
    """Whether a text is the picture of a run as tools/meaning has it."""
    wanted = seen_of(name, source, width, target, most, first, row)

    def judged(text):
        why = is_picture(text)
        if why:
            return why
        said, wrong = shown_in(text)
        return wrong + [f"{what}: {said[what]}, and {wanted[what]} is wanted" for what in wanted if said[what] != wanted[what]]

    return judged


def meant_runs():
    """Pictures of each width, of elements, lanes, bools and negative values, of calls in calls, of a fault, of runs that are cut short, of rows
    and of runs from a step on."""
    return [
        *(meant_run("lanes.ispc", LANES, width, target) for width, target in OF_LANES),
        *(meant_run("elements.ispc", ELEMENTS, 4, target) for target in OF_ELEMENTS),
        *(meant_run("deep.ispc", DEEP, width, target) for width, target in [(4, "k"), (8, "r"), (16, "x")]),
        *(meant_run("lanes.ispc", LANES, 4, "x", most) for most in [1, 3, 7]),
        meant_run("halt.ispc", HALT, 8, "x"),
        *(meant_run("lanes.ispc", LANES, width, "x", row=row) for width in (4, 8, 16) for row in (1, 4, 9)),
        *(meant_run("deepest.ispc", DEEPEST, width, "r", row=row) for width, row in [(4, 60), (16, 11)]),
        *(meant_run("deep.ispc", DEEP, width, "r", first=first, row=row) for width, first, row in [(4, 4, 5), (8, 9, 60), (16, 2, 7)]),
        *(meant_run("long.ispc", LONG, width, "x", most, first, row) for width, most, first, row in OF_LONG),
        *(meant_run("halt.ispc", HALT, 8, "x", first=2, row=row) for row in (1, 2)),
        meant_run("another name.ispc", HALT, 4, "x"),
    ]


def meant_run(name, source, width, target, most=400, first=1, row=60):
    words = ["picture", name, "--width", str(width), "--watch", target, "--most", str(most)]
    words += [it for option, number, default in [("--from", first, 1), ("--row", row, 60)] if number != default for it in (option, str(number))]
    what = f"picture of {name}, {width} lanes, {target}, at most {most} from {first}, rows of {row}"
    return Run(what, b"", words, is_meant(name, source, width, target, most, first, row), b"", data={name: source.encode()})
