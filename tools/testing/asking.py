"""`when EXPR` at the prompt: the moments of the run at which an expression is not 0, by the values that Python computes of each moment.

The program has a step in each line; each moment's values stand in a list.
"""

from .tried import Run, shown

SOURCE = b"""uniform int total = 0;
export void go() {
    int v = programIndex;
    total = 1;
    v += total;
    total = 4;
    v += total;
    total = 2;
    total = 9;
}
"""
# What `total` and lane 0 of `v` are at each moment, the last one at the closing brace; `v` is in scope behind its declaration, and lane K has K more.
MOMENTS = [(0, None), (0, 0), (1, 0), (1, 1), (4, 1), (4, 5), (2, 5), (9, 5)]
STEPS = ["3:5", "4:5", "5:5", "6:5", "7:5", "8:5", "9:5", "10:1"]
FILE = "asked.ispc"
PLACES = [f"go at {FILE}:{place}, step {step}, lanes " for step, place in enumerate(STEPS)]
# The step of the last moment, and more steps than the run has.
LAST, MANY = len(MOMENTS) - 1, len(MOMENTS) + 1
CUT = "the step limit of one command is reached: later moments are not told"


def rows(holds):
    """The moments at which an expression is not 0, by a call that gives the lanes where it is, or None where it has no value."""
    found = []
    for step, (total, first) in enumerate(MOMENTS):
        lanes = holds(total, None if first is None else [first + lane for lane in range(4)])
        if lanes is not None:
            found.append((step, lanes))
    return found


def told(expression, holds, most, limit):
    """What is told of an expression, of as many steps as one command does."""
    values = [it for it in rows(holds) if it[0] <= limit]
    cut = [CUT] if limit <= LAST else []
    hits = [(step, lanes) for step, lanes in values if any(lanes)]
    lines = [PLACES[step] + "".join(".#"[bool(it)] for it in lanes) for step, lanes in hits[:most]]
    last = f" of the {len(values)} moments at which it has a value"
    if not hits:
        return [f"{expression}: 0 at each{last}", *cut]
    return [*lines, f"{expression}: not 0 at {len(hits)}{last}; `goto {hits[0][0]}` goes to the first", *cut]


def uniform(test):
    return lambda total, v: [test(total)] * 4


def varying(test):
    return lambda total, v: None if v is None else [test(total, it) for it in v]


ASKED = [
    ("total > 3", uniform(lambda total: total > 3)),
    ("total - 4", uniform(lambda total: total - 4)),
    ("v == 3", varying(lambda total, it: it == 3)),
    ("v > total", varying(lambda total, it: it > total)),
    ("v > 100", varying(lambda total, it: it > 100)),
]


def asked(before, limit):
    """Each expression, asked of the run where the program stands behind some lines, and where it stands then."""
    lines, wanted = [*before], []
    for expression, holds in ASKED:
        lines += [f"when {expression}", f"when -a {expression}"]
        wanted += told(expression, holds, 1, limit) + told(expression, holds, 20, limit)
    lines += ["info line"]
    return lines, wanted


def run(name, before, last, limit=MANY):
    lines, wanted = asked(before, limit)

    def judge(text):
        said = text.decode(errors="replace").splitlines()
        place = [at for at, line in enumerate(said) if line.startswith(last)]
        came = said[place[-1] - len(wanted) : place[-1]] if place else []
        return [] if came == wanted else [f"{found!r}, and {right!r} is wanted" for found, right in zip(came, wanted) if found != right][:8] or ["it has few lines:", *shown(text)]

    words = ["debug", FILE, "--steps", str(limit)]
    return Run(name, "".join(f"{it}\n" for it in lines).encode(), words, judge, b"", data={FILE: SOURCE})


def refused():
    """Nothing is asked where a value was set, and nothing of an expression with no meaning."""
    typed = b"step\nwhen nothing > 1\nwhen\nset var total = 7\nwhen total > 3\n"

    def judge(text):
        return [f"no {it!r}" for it in (b"S5 UnknownName", b"An expression follows `when`", b"Nothing is done: a value was set") if it not in text]

    return Run("when it is not known", typed, ["debug", FILE], judge, b"", data={FILE: SOURCE})


def not_whole():
    """Nothing is asked where a limit is set to what can be taken back."""
    told = b"Nothing is done: a limit is set to what can be taken back, so the start and the number of a step are not known; `info record` tells more.\n"
    judge = lambda text: [] if text.endswith(told) else ["it ends otherwise:", *shown(text)]
    return Run("when the start is not kept", b"step 5\nwhen total > 3\n", ["debug", FILE, "--history", "2"], judge, b"", data={FILE: SOURCE})


def runs():
    found = [run("each moment is asked from the start", [], PLACES[0]), run("each moment is asked from amid the run", ["step 4"], PLACES[4])]
    found += [run(f"each moment of {limit} steps is asked", [], PLACES[0], limit) for limit in (2, 5, LAST, LAST + 1)]
    return [*found, run("each moment of 4 steps is asked from behind them", ["step 3", "step 3"], PLACES[6], 4), refused(), not_whole()]
