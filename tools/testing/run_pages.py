"""Pages of runs: what `rinddecade page` writes of examples and kernels is, moment by moment, what tools/meaning works out.

Compared are place, function, depth, lanes, open calls, the values of all variables of all frames and of the file with their types and how many
words each has, also at the end, and that of each change something changed. A page with one step of several has those steps, each near a step that was
asked for, and the last one. The viewer round the record is the one of crates/page_viewer, and nothing of a source ends the record. Of a page that is cut
standard error has what it takes.
"""

import json
import re

from meaning import running
from meaning.debugging import Debugger
from meaning.values import Fault

from . import examples, meant, pictures, viewer
from .tried import Result, Run

MOST_ELEMENTS = 1024
WIDTHS = (4, 8, 16)

# Where the record stands in a page.
RECORD = re.compile(r'<script type="application/json" id="record">(.*?)</script>', re.S)

# How many steps on each side of a step that is asked for a page has.
REACH = 1000

# How many steps of a kernel are compared.
MOST_OF_KERNEL = 600

KERNELS = ("mandelbrot", "quicksort", "queens", "levenshtein", "radix_sort")

# A source whose text would end the record, or be read as HTML, were it not escaped; with bytes that are no text.
HOSTILE = b"""uniform int64 big;
export void go() { // </script><img src=x onerror=alert(1)><!-- <script> &lt; \xff\x00 "\\u003c
    int x = programIndex;
    big = 9007199254740993;
    big = -big;
    if (x > 1) x = x / (x - 3);
}
"""

# Calls in calls, of a function with an array parameter that other calls give other parts of.
CALLS = """uniform int a[12];
uniform int8 total;
void fill(uniform int n, uniform int part[]) {
    part[0] = n;
    if (n > 1) fill(n - 1, &part[2]);
}
int twice(int x) {
    int y = x + x;
    return y;
}
int plus(int s) {
    int sum = s + 7;
    return sum;
}
export void go() {
    fill(4, &a[3]);
    fill(2, a);
    int t = twice(programIndex);
    bool odd = t == 2;
    int z = twice(t);
    int w = plus(z);
    {
        int z = 5;
        z++;
    }
    total = a[3];
    z = 7 / (programIndex - 2);
}
"""

# Each type, as a lane's, as one for all lanes and as elements, of which each frame at depths 1 to 3 and the file change some: also to below 0,
# to 0 and to the greatest. A call changes the elements that the frames below it see.
TYPES = """uniform bool flags[3];
uniform int8 bytes[5];
uniform unsigned int64 most[2];
uniform int16 low = -1;
uniform unsigned int16 high = 65535;
bool each = true;
int64 wide = 0;
void deepest(uniform bool set, uniform int8 part[], uniform uint8 small) {
    uniform int8 first = part[0];
    part[0] = first - 100;
    part[1] = part[0];
    part[1] = part[0];
    flags[1] = set;
    flags[1] = !set;
    small = small - 1;
    uint8 lane = small + programIndex;
    lane = lane + 250;
}
uint16 middle(uint16 x, int16 y, uniform bool set) {
    uniform uint32 count = 0;
    count = count - 1;
    if (x > 3) {
        y = -y;
        deepest(set, &bytes[1], 0);
    }
    x = x * 40000;
    deepest(!set, bytes, 7);
    y = y - 32767;
    return x;
}
export void go() {
    uniform int32 one = -2147483647;
    one = one - 1;
    uniform uint64 big = 0;
    big = big - 1;
    most[1] = big;
    uint32 parts = programIndex;
    parts = parts - 1;
    bool odd = (programIndex & 1) == 1;
    wide = programIndex;
    wide = wide * -1000000007000000;
    uint16 low_part = middle(programIndex, 5, true);
    if (odd) {
        uint16 again = middle(4, -5, false);
        low_part = again;
    }
    each = !each;
    low = low + 1;
    high = high + 1;
    low = low;
}
"""


# A loop that is long enough for steps that are left out, with a call in each turn, and a foreach form that other numbers of lanes do.
LOOP = """uniform int seen[16];
uniform unsigned int64 turns;
int deep(uniform int n, int x) {
    int y = x * 3;
    if (n > 0) {
        y = deep(n - 1, x + n);
    }
    return y;
}
export void go() {
    int x = programIndex;
    for (uniform int at = 0; at < 200; at++) {
        x = deep(at % 3, x);
        x = x % 101;
        foreach (i = 0 ... at % 7) {
            seen[i] += at;
        }
        turns = turns - at;
    }
}
"""


# ---- what is wanted

def words_of(state, variable):
    if variable.is_array:
        array, first, length = state.view(variable)
        return state.memory[array][first : first + length]
    return state.words(variable)


def values_of(state, variable, most_words):
    return [("false", "true")[it] if variable.type == "bool" else str(it) for it in words_of(state, variable)[:most_words]]


def shape_of(state, variable):
    """The type of a variable, whether its words are lanes or elements or one for all lanes, and how many there are."""
    kind = "elements" if variable.is_array else {"varying": "lanes", "uniform": "one"}[variable.rate]
    return variable.type, kind, len(words_of(state, variable))


def seen_at(debugger):
    """The variables of the file and of each frame, in order: depth, variable, and the state that shows it."""
    state, found = debugger.state, []
    bare = running.State(state.width, state.memory, state.frames[:1])
    found += [(0, it, bare) for it in debugger.program.globals]
    for depth, frame in enumerate(state.frames, 1):
        above = state.frames[depth] if depth < len(state.frames) else None
        scope = above.call.scope if above else debugger.spot()[2]
        own = running.State(state.width, state.memory, state.frames[:depth])
        ordered = sorted(scope, key=lambda it: not it.is_parameter)
        found += [(depth, it, own) for it in ordered]
    return found


def moment_of(debugger, most_words):
    """Place text, the open calls, the entry's first, the variables with their values, and with their shapes."""
    calls = [[*above.call.place, below.function.name] for below, above in zip(debugger.state.frames, debugger.state.frames[1:])]
    seen = seen_at(debugger)
    values = [(depth, it.name, values_of(state, it, most_words)) for depth, it, state in seen]
    return debugger.place_text(), calls, values, [(depth, it.name, *shape_of(state, it)) for depth, it, state in seen]


def wanted_of(source, options, first, most, most_words=MOST_ELEMENTS, each=1, around=()):
    """The moments of a run from a step on that are told, and how it ends."""
    moments, end, _ = wanted_steps(source, options, first, most, most_words, each, around)
    return moments, end


def wanted_steps(source, options, first, most, most_words, each, around):
    """The same, with how many steps were done before each."""
    debugger = Debugger(source, **options)
    for _ in range(first - 1):
        debugger.forward()
    moments, told, done = [], [], 0
    while True:
        is_told = done % each == 0 or any(abs(first + done - it) <= REACH for it in around)
        end = ["ended"] if not debugger.state.frames else ["limit"] if done == most * each else None
        moment = moment_of(debugger, most_words) if is_told or end else None
        try:
            if not end:
                debugger.forward()
        except Fault as fault:
            end, moment = ["fault", *fault.name.split(), fault.lane], moment or moment_of(debugger, most_words)
        if moment:
            moments.append(moment)
            told.append(done)
        if end:
            return moments, end, told
        done += 1


def steps_left(source, options, done):
    """How many steps a run has behind so many."""
    debugger, left = Debugger(source, **options), -done
    while debugger.state.frames:
        try:
            debugger.forward()
        except Fault:
            break
        left += 1
    return left


# ---- what is there

def record_of(page):
    """The record of a page."""
    return json.loads(RECORD.search(page)[1])


def told_value(record, variable, value):
    return ("false", "true")[int(value)] if record["variables"][variable][2] == "bool" else str(value)


def moments_in(record):
    """The moments that a record tells, each made from the one before; what is wrong with a change that changes nothing."""
    values, calls, wrong = {}, [], []
    for at, (line, column, function, depth, lanes, changes, *others) in enumerate(record["moments"]):
        for variable, *row in changes:
            if not row:
                values.pop(variable, None) if variable in values else wrong.append(f"moment {at}: {variable} was not there")
                continue
            own = values.setdefault(variable, [])
            for part, value in enumerate(row[1:], row[0]):
                own += [None] * (part + 1 - len(own))
                wrong += [f"moment {at}: part {part} of {variable} is as before"] if own[part] == value else []
                own[part] = value
        if others:
            calls = calls[: others[0]] + others[1]
        shown = "".join("1" if lanes >> lane & 1 else "0" for lane in range(record["width"]))
        place = f"at {line}:{column} {record['functions'][function]} depth {depth} lanes {shown}" if line else "ended"
        there = [(*record["variables"][it][:2], [told_value(record, it, word) for word in own]) for it, own in values.items()]
        shapes = [tuple(record["variables"][it]) for it in values]
        yield place, [[*call[:2], record["functions"][call[2]]] for call in calls], there, shapes, wrong


def is_page_of(source, options, first, most, most_words, each=1, around=()):
    """Whether a page has the record of a run as tools/meaning has it."""
    wanted, end, steps = wanted_steps(source, options, first, most, most_words, each, around)
    width = options["width"]

    def judged(text):
        page = text.decode(errors="replace")
        why = [] if page.count("</script>") == 2 else ["something ends a script"]
        record = record_of(page)
        why += [] if record["end"] == end else [f"the end is {record['end']}, and {end} is wanted"]
        told = [record["width"], record["first"], record["most_words"]]
        why += [] if told == [width, first, most_words] else [f"width, first number and most words are {told}, and {[width, first, most_words]} is wanted"]
        why += [] if record["steps"] == steps else [f"{len(record['steps'])} steps, from {record['steps'][:9]}, and {len(steps)} are wanted, from {steps[:9]}"]
        came = list(moments_in(record))
        why += [] if len(came) == len(wanted) else [f"{len(came)} moments, and {len(wanted)} are wanted"]
        for at, (one, other) in enumerate(zip(came, wanted)):
            why += differences(at, one, other)
            if why:
                return why
        return why + (came[-1][-1][:3] if came else [])

    return judged


def differences(at, came, wanted):
    why = [f"moment {at}: {one}, and {other} is wanted" for one, other in zip(came[:2], wanted[:2]) if one != other]
    for mine, theirs in zip(came[2:4], wanted[2:4]):
        mine, theirs = sorted(mine, key=str), sorted(theirs, key=str)
        why += [f"moment {at}: {one}, and {other} is wanted" for one, other in zip(mine, theirs) if one != other]
        why += [] if len(mine) == len(theirs) else [f"moment {at}: {len(mine)} variables, and {len(theirs)} are wanted"]
    return why


def is_led_to(source, done):
    """Whether a page has the moments of a run behind so many steps, which commands have done: its own steps are counted from there."""
    wanted, _ = wanted_of(source, {"width": 4}, 1 + done, 100_000)

    def judged(text):
        record = record_of(text.decode(errors="replace"))
        came = list(moments_in(record))
        why = [] if (len(came), record["first"]) == (len(wanted), 1) else [f"{len(came)} moments from {record['first']} on, and {len(wanted)} from 1 on are wanted"]
        return why + [it for at, (one, other) in enumerate(zip(came, wanted)) for it in differences(at, one, other)][:8]

    return judged


def is_whole_page(root):
    """Whether a page has the viewer as crates/page_viewer has it round its record."""
    front, rest = viewer.front_and_rest(root)

    def judged(text):
        page = text.decode(errors="replace")
        why = [] if page.startswith(front) else ["its front is another"]
        return why + ([] if page.endswith(rest) else ["its end is another"]) + ([] if page.count("<img") == 0 else ["text of the source is HTML"])

    return judged


# ---- runs

def stored(root, name):
    """The page of an example, as examples/README.md links it."""
    source = {f"{name}.ispc": root / f"examples/{name}.ispc"}
    words, data = examples.with_input(name, examples.input_of(root, name))
    words = ["page", f"{name}.ispc", *examples.arguments(root, name), *words]
    file = root / f"examples/{name}.html"
    return Run(f"stored page of {name}", b"", words, file.read_bytes() if file.is_file() else b"(none)", b"", data=source | data)


def stored_pages(root):
    return [stored(root, it) for it in examples.names(root) if pictures.is_drawn(root, it)]


class PageRun(Run):
    """A run whose page is cut: standard error has where it ends, how many steps the run has behind that, and what the page takes, the viewer not counted for a moment."""

    NOTE = re.compile(rb"note: the page ends at step (\d+), and the run goes on for (\d+) more\n"
                      rb"note: the page takes (\d+) bytes, about (\d+) for each of its (\d+) moments; "
                      rb"--most N bounds them, --from N begins later, --each N has one step of N\n")

    def judged(self, status, output, errors):
        found, result = self.NOTE.fullmatch(errors), super().judged(status, output, errors)
        if not found:
            return Result(self.name, False, [*result.why, f"standard error: {errors.decode(errors='replace')}"])
        text = RECORD.search(output.decode(errors="replace"))[1]
        moments = len(json.loads(text)["moments"])
        wanted = [self.last, self.left, len(output), len(text.encode()) // moments, moments]
        came = [int(it) for it in found.groups()]
        why = [] if came == wanted else [f"the note has {came}, and {wanted} is wanted"]
        return Result(self.name, result.passed and not why, [*result.why, *why])


def run_of(name, source, words=(), options=None, data=None, first=1, most=100_000, most_words=MOST_ELEMENTS, each=1, around=()):
    options = {"width": 4} | (options or {})
    said = ["page", f"{name}.ispc", *words, "--width", str(options["width"])]
    said += (["--from", str(first)] if first > 1 else []) + (["--most", str(most)] if most < 100_000 else [])
    said += ["--elements", str(most_words)] if most_words != MOST_ELEMENTS else []
    said += (["--each", str(each)] if each > 1 else []) + (["--around", ",".join(map(str, around))] if around else [])
    text = source if isinstance(source, bytes) else source.encode()
    judged = is_page_of(text.decode(errors="replace"), options, first, most, most_words, each, around)
    title = f"page of {name}, {options['width']} lanes, from {first}, {most_words} words" + (f", one of {each}" if each > 1 else "")
    left = steps_left(text.decode(errors="replace"), options, first - 1 + most * each) if most < 100_000 else 0
    kind, errors = (PageRun, None) if left > 0 else (Run, b"")
    run = kind(title, b"", said, judged, errors, data={f"{name}.ispc": text} | (data or {}))
    run.wanted, run.last, run.left = (options, first, most), first + most * each, left
    return run


def example_runs(root):
    made = []
    for name in examples.names(root):
        words = examples.arguments(root, name)
        if "--lane-pure" in words:
            continue
        given = examples.input_of(root, name)
        input_words, data = examples.with_input(name, given)
        options = {"rows": meant.rows_of(given.decode()) if given else {}}
        options |= {"entry": words[words.index("--entry") + 1]} if "--entry" in words else {}
        source = (root / f"examples/{name}.ispc").read_bytes()
        for width in WIDTHS if not given else (4,):
            made.append(run_of(name, source, [*words, *input_words], options | {"width": width}, data))
    return made


def kernel_runs(root):
    made = []
    for name in KERNELS:
        folder = root / "examples/kernels"
        given = (folder / f"{name}.input").read_bytes()
        options = {"rows": meant.rows_of(given.decode())}
        words = ["--input", f"{name}.input"]
        source = (folder / f"{name}.ispc").read_bytes()
        for first in (1, 100):
            made.append(run_of(name, source, words, options, {f"{name}.input": given}, first, MOST_OF_KERNEL))
    return made


# Width, one of how many steps, steps that are asked for, and the first one.
SOME = [(4, 100, (), 1), (8, 1000, (2500,), 1), (16, 450, (1, 3000), 7), (4, 999, (10_000_000, 1500), 1200)]


def no_places():
    """Runs whose `--around` names no steps."""
    data = {"calls.ispc": CALLS.encode()}
    said = "error: --around takes numbers of steps, 16 at most, with commas between them, and not {}\n"
    return [Run(f"page around {text[:20]!r}", b"", ["page", "calls.ispc", "--each", "2", f"--around={text}"], b"", said.format(text).encode(), 2, data)
            for text in ("x", "1,", ",2", "-3", "4 5", "4294967296", ",".join("7" * 17))]


def runs(root):
    hostile = Run("page of a hostile source", b"", ["page", "hostile.ispc"], is_whole_page(root), b"", data={"hostile.ispc": HOSTILE})
    sources = (("hostile", HOSTILE), ("calls", CALLS), ("types", TYPES))
    own = [run_of(name, text, options={"width": width}) for name, text in sources for width in WIDTHS]
    own += [run_of("types", TYPES, options={"width": width}, most_words=most_words) for width in (8, 16) for most_words in (1, 3, 9)]
    cut = [run_of("calls", CALLS, first=first, most=most) for first, most in ((1, 1), (3, 5), (12, 100))]
    some = [run_of("loop", LOOP, options={"width": width}, each=each, around=around, first=first) for width, each, around, first in SOME]
    some += [run_of("loop", LOOP, most=20, each=30), run_of("calls", CALLS, each=4, around=(1,)), run_of("calls", CALLS, each=1000), run_of("types", TYPES, options={"width": 16}, each=7)]
    data = {"calls.ispc": CALLS.encode()}
    late = [Run(f"page {' '.join(words)}", b"", ["page", "calls.ispc", *words], b"", pictures.NOT_SO_FAR, 2, data) for words in (["--from", "50"], ["--from", "9", "--steps", "7"])]
    led = [Run(f"page from where commands led, {name}", b"", ["page", "calls.ispc", "--commands", "two"], is_led_to(CALLS, 2), b"", data=data | {"two": lines}) for name, lines in pictures.LED.items()]
    return [*stored_pages(root), *example_runs(root), *kernel_runs(root), *own, *cut, *some, *no_places(), hostile, *late, *led]
