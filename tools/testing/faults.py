"""The faults F1 to F4 by every set of active lanes and every set of lanes at fault: the lowest lane of both is named, and is taken back.

Both sets are set by commands, in one run for each fault at width 4.
"""

from .tried import Run

LANES = 4
SETS = range(1, 2**LANES)
HEAD = """uniform int table[4];
uniform int active;
uniform int bad;
export void go() {
    int x = 1;
    if ((active >> programIndex) & 1)
        """
BAD = "((bad >> programIndex) & 1)"
FAULTS = {
    "F1 DivideByZero": f"x = 6 / (1 - {BAD});",
    "F2 Index": f"x = table[4 * {BAD}];",
    "F3 LaneIndex": f"x = shuffle(x, 4 * {BAD});",
    "F4 Assert": f"assert({BAD} == 0);",
}
FIRST, TEST, FAULTY = "5:5", "6:5", "7:9"
ALL = (1 << LANES) - 1


def at(place, lanes):
    return f"at {place} go depth 1 lanes {''.join(str(lanes >> lane & 1) for lane in range(LANES))}"


def with_sets(fault, active, bad):
    """The commands for these two sets, each with its answer."""
    first = at(FIRST, ALL)
    yield f"set var active = {active}", f"active = {active}"
    yield f"set var bad = {bad}", f"bad = {bad}"
    if active & bad == 0:
        yield "continue", "ended"
        yield "reverse-continue", f"history end: {first}"
    else:
        lowest = next(lane for lane in range(LANES) if active & bad & 1 << lane)
        yield "continue", f"fault {fault} lane {lowest}: {at(FAULTY, active)}"
        yield "print x", f"x = {' '.join('1' * LANES)}"
        yield "undo", f"undone step: {at(TEST, ALL)}"
        yield "undo", f"undone step: {first}"
    yield "undo", f"undone poke: {first}"
    yield "undo", f"undone poke: {first}"
    yield "undo", "C3 NoHistory"


def run_of(fault, statement):
    name = f"{fault} by active lanes and lanes at fault"
    lines = [line for active in SETS for bad in SETS for line in with_sets(fault, active, bad)]
    commands = "".join(f"{command}\n" for command, _ in lines).encode()
    answers = "".join(f"{answer}\n" for _, answer in lines).encode()
    file = f"{fault.split()[0]}.ispc"
    return Run(name, commands, [file], answers, b"", data={file: f"{HEAD}{statement}\n}}\n".encode()})


def runs():
    return [run_of(fault, statement) for fault, statement in FAULTS.items()]
