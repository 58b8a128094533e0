"""`info lanes` at the prompt: the share of the active lanes of the steps so far, by what tools/meaning does of each step, at 4, 8 and 16 lanes.

The steps so far are those of a profile of so many steps. What is told of a line and of a function are the steps of the line and the function of
the frame that is selected: of an outer frame the line is that of its call. Its text is made here anew. Behind it the program stands where it
stood, and as many steps can be taken back.
"""

import re

from meaning.debugging import Debugger
from meaning.values import Fault

from . import examples, meant
from .profiles import DEEP, MIXED, Counted
from .tried import Run, shown

WIDTHS = (4, 8, 16)
NAMED = ("divide", "recursion", "lanes", "reduce")
FILE, PAGE = "counted.ispc", "docs/PROFILE.md"
HELD = 22
# What `info record` tells beside the steps, by how the run is kept.
COPIES = "copies of moments"

# A loop that lanes leave one after another: lane K does its body K + 1 times. In a gang of 4 these are 4 + 3 + 2 + 1 lane-steps at line 5, by 4
# steps, of 16 places; so 62.5% and 6 lost. The head at line 4 has `int i = 0` before it by all, and a test more, at which no lane goes on.
BY_HAND = """export void go() {
    int v = 0;
    int i = 0;
    while (i <= programIndex) {
        v += 3;
        i++;
    }
    v = 1;
}
"""
# What `info lanes` tells of it at `v = 1`, in a gang of 4: by line 2 and 3 one step each by all lanes, by line 4 five tests, which 4, 4, 3, 2 and 1
# lanes do, and by lines 5 and 6 four steps each, of 4, 3, 2 and 1 lanes. So 15 steps of 60 places, of which 4 + 4 + 14 + 10 + 10 = 42 are taken.
HAND_WORKED = {
    "break 8": [
        "lanes so far, of 4           steps   share       lost",
        "  line 8                 no step yet",
        "  go                            15   70.0%         18",
        "  run                           15   70.0%         18",
    ]
}


def row(label, counts):
    """A row of what is told."""
    front = "  " + label.ljust(HELD)
    if not counts["steps"]:
        return f"{front} no step yet"
    return f"{front}{counts['steps']:10}{counts['share']:7.1f}%{counts['lost']:11}"


def told(counted, line=None, name=None):
    """What is told of the steps that were counted, where a frame of a function stands at a line."""
    if not counted.steps:
        return ["no step has been made yet"]
    rows = []
    if name is not None:
        rows = [row(f"line {line}", counted.counts(lambda step: step[0] == line)), row(name, counted.counts(lambda step: step[1][-1] == name))]
    return ["lanes so far, of " + str(counted.width).ljust(7) + "     steps   share       lost", *rows, row("run", counted.all())]


class Way:
    """A run, step by step: the frames at each moment, the top one's first, each by its line and its function."""

    def __init__(self, source, options):
        whole = Counted(source, options, 10_000_000)
        self.options, self.source = options, source
        # A step that faults is none that was made.
        self.made = len(whole.steps) - (whole.end[0] == "fault")
        self.calls = calls_of(source, options, len(whole.steps))

    def told(self, step, frame=0):
        """What is told after so many steps, where a frame is selected."""
        counted = Counted(self.source, self.options, step)
        frames = self.calls[step] if step < len(self.calls) else []
        return told(counted, *frames[frame]) if frame < len(frames) else told(counted)


def calls_of(source, options, steps):
    """The lines and functions of all frames at each moment before a step, the top one's first."""
    debugger, found = Debugger(source, **options), []
    for _ in range(steps):
        places = debugger.frames()
        found.append([(int(it.split()[1].split(":")[0]), it.split()[2]) for it in places])
        try:
            debugger.forward()
        except Fault:
            break
    return found


def asked(name, source, options, words, data, lines, wanted):
    """A run of lines, some of which ask: what is told stands between marks."""
    typed = "".join(f"{it}\n" for it in lines).encode()

    def judge(text):
        said = text.decode(errors="replace").splitlines()
        came, open_at = [], None
        for at, line in enumerate(said):
            if line == "(told":
                open_at = at + 1
            elif line == "told)" and open_at is not None:
                came.append([it for it in said[open_at:at] if not it.startswith(COPIES)])
                open_at = None
        wrong = [f"{number}: {found!r}, and {right!r} is wanted" for number, (found, right) in enumerate(zip(came, wanted)) if found != right]
        return wrong[:6] + ([f"{len(came)} were told, and {len(wanted)} are wanted"] if len(came) != len(wanted) else []) + (shown(text)[:40] if wrong and len(wanted) < 3 else [])

    words = ["debug", FILE, *words, "--width", str(options.get("width", 4))]
    return Run(f"{name}, {options.get('width', 4)} lanes", typed, words, judge, b"", data={FILE: source.encode()} | data)


ASK = ["echo (told", "info lanes", "echo told)"]


def moments_of(way):
    """Some moments of a run, its first and last among them."""
    most = way.made
    return sorted({0, 1, 2, most // 3, most // 2, most - 1, most} & set(range(most + 1)))


def walk(name, source, options, words=(), data=None):
    """Moments one after another, forwards and backwards, and outer frames; each time as many steps are told before and behind."""
    way = Way(source, options)
    lines, wanted = [*ASK], [way.told(0)]
    for step in [*moments_of(way), *reversed(moments_of(way))]:
        lines += [f"goto {step}", *ASK, "echo (told", "info record", "echo told)"]
        kept = f"all is recorded: {step} step{'s' if step != 1 else ''} and 0 changes were made, and all can be taken back (`set record full insn-number-max N` limits that)"
        wanted += [way.told(step), [kept]]
        if step >= 3:
            lines += ["reverse-step 2", *ASK, "step 2", *ASK]
            wanted += [way.told(step - 2), way.told(step)]
    return asked(f"lanes so far of {name}", source, options, words, data or {}, lines, wanted)


def frames(name, source, options, depth):
    """The frames of the first moment at which as many stand, each selected in turn, and then again from the outermost one."""
    way = Way(source, options)
    deep = [at for at, calls in enumerate(way.calls) if len(calls) >= depth]
    lines, wanted = [], []
    for step in (deep[0], deep[len(deep) // 2], deep[-1]):
        lines += [f"goto {step}"]
        for frame in range(len(way.calls[step])):
            lines += [f"frame {frame}", *ASK]
            wanted.append(way.told(step, frame))
        lines += ["down", *ASK]
        wanted.append(way.told(step, max(0, len(way.calls[step]) - 2)))
    return asked(f"lanes so far of frames of {name}", source, options, (), {}, lines, wanted)


SET = "Nothing is done: a value was set by `set var`, which going back would take back; `undo` takes it back."
LIMITED = "Nothing is done: a limit is set to what can be taken back, so the start and the number of a step are not known; `info record` tells more."
ALONE = "C1 BadCommand: `info lanes` stands alone: it tells the share of the active lanes of the steps so far, of the line and the function of the frame that is selected, and of the run."


def poked(width):
    """Where a value was set nothing is told; where that is taken back, the same as before."""
    way = Way(BY_HAND, {"width": width})
    lines = ["step 5", *ASK, "set var i = 2", *ASK, "step 3", *ASK, "reverse-step 3", "undo", *ASK, "set var i = 9", "goto 4", *ASK]
    wanted = [way.told(5), [SET], [SET], way.told(5), way.told(4)]
    return asked("lanes so far behind a value that was set", BY_HAND, {"width": width}, (), {}, lines, wanted)


def stopped(width):
    """No breakpoint or watch stops the way, and they stay; another word behind it is refused; what is displayed is not printed."""
    way = Way(BY_HAND, {"width": width})
    lines = ["break 5", "display v", "continue", *ASK, "continue", *ASK, "info lanes now", "i lanes", "set record full insn-number-max 5", *ASK, "echo (told", "info lanes now", "echo told)"]
    first = next(at for at, calls in enumerate(way.calls) if calls[0][0] == 5)
    second = next(at for at, calls in enumerate(way.calls) if calls[0][0] == 5 and at > first)
    run = asked("lanes so far at breakpoints", BY_HAND, {"width": width}, (), {}, lines, [way.told(first), way.told(second), [LIMITED], [ALONE, "    info lanes now", "         ^"]])
    return run


def by_hand():
    lines, wanted = [], []
    for line, right in HAND_WORKED.items():
        lines += [line, "continue", *ASK]
        wanted.append(right)
    return asked("lanes so far, worked out by hand", BY_HAND, {"width": 4}, (), {}, lines, wanted)


def of_page(root):
    """What docs/PROFILE.md shows of a run of mandelbrot is what is told there."""
    shown_there = re.findall(r"^```\n(lanes so far.*?)^```$", (root / PAGE).read_text(), re.M | re.S)
    folder = root / "examples/kernels"
    given = (folder / "mandelbrot.input").read_bytes()
    options = {"width": 8, "rows": meant.rows_of(given.decode())}
    words, data = ["--input", "mandelbrot.input"], {"mandelbrot.input": given}
    return asked(f"{PAGE}: info lanes", (folder / "mandelbrot.ispc").read_text(), options, words, data, ["goto 3000", *ASK], [it.splitlines() for it in shown_there])


def example_runs(root):
    found = []
    for name in NAMED:
        words = examples.arguments(root, name)
        given = examples.input_of(root, name)
        input_words, data = examples.with_input(name, given)
        options = meant.options_of(words, given)
        source = (root / f"examples/{name}.ispc").read_text()
        for width in WIDTHS if not given else (4,):
            found.append(walk(name, source, options | {"width": width}, [*words, *input_words], data))
    return found


def runs(root):
    found = [by_hand(), of_page(root), *example_runs(root)]
    for width in WIDTHS:
        found += [walk("calls and a fault", MIXED, {"width": width}), walk("recursion in turn", DEEP, {"width": width}), frames("recursion in turn", DEEP, {"width": width}, 4)]
        found += [poked(width), stopped(width)]
    return found
