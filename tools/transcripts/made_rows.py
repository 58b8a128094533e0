"""Worked rows that are counted out: a statement for each set of lanes, or as many parts as there may be."""

from row_parts import Row, Run, refused, refused_at

ENTRY = "export void go() { "
MOST_VARIABLES = "export void go() {\n" + "".join(f"int v{n};\n" for n in range(1, 257))
FAULTS = "a fault comes at a lane exactly if that lane is active, and is no step"


def fault_by_lane(fault, statement, before, mask, lane):
    """A statement that faults in one lane, done by the lanes of a mask; then the step before it is taken back."""
    test = f"if (({mask} >> programIndex) & 1) "
    line = ENTRY + "int x = 0; " + test + statement.format(lane=lane) + " }"
    place = f"{1 + before.count(chr(10))}:{line.index(test) + len(test) + 1}"
    head = f"{1 + before.count(chr(10))}:{line.index(test) + 1}"
    if not mask >> lane & 1:
        return before + line, [Run([("continue", "ended")])]
    lanes = "".join(str(mask >> k & 1) for k in range(4))
    script = [("continue", f"fault {fault} lane {lane}: [{place} {lanes}]"), ("undo", f"undone step: [{head} 1111]")]
    return before + line, [Run(script)]


def faults(name, fault, statement, before=""):
    return Row(name, FAULTS, [fault_by_lane(fault, statement, before, mask, lane) for mask in range(1, 16) for lane in range(4)])


COMMAND_REFUSALS = """uniform int8 q = 1;
export void go() {
foreach (i = 0 ... 4)
q += 1;
}"""
REFUSED_COMMANDS = [
    ("step 2", "[4:1 1111]"),
    ("set var i = 3", "C9 Constant"),
    ("set var q = 300", "C8 OutOfRange"),
    ("print z", "C2 NoSuchName"),
    ("x" * 257, "C1 BadCommand"),
    ("finish", "C6 Outermost"),
    ("delete 3", "C10 NoSuchNumber"),
    ("break 6", "C7 NoLine"),
    ("watch i", "C2 NoSuchName"),
    ("print q", "q = 1"),
    ("info breakpoints", "none"),
    ("undo", "undone step: [3:1 1111]"),
    *[("break 4", f"breakpoint {n} at line 4") for n in range(1, 65)],
    ("break 4", "C11 TableFull"),
]
LIMITS = [
    refused_at("uniform int @a[1048577]; " + ENTRY + "}", "S13 Limit"),
    refused_at(MOST_VARIABLES + "int @v257;\n}", "S13 Limit"),
    ("void f() { }", [refused("entry: E1 NoEntry")]),
]
SUM = ENTRY + "int x = 1" + " + 1" * 256 + "; }"
OF_SUM = Run([("step", f"[1:{20 + len('int x = 1;') + 4 * 256 + 1} 1111]"), ("print x", "x = 257 257 257 257")])
OF_VARIABLES = Run([("step 256", "[258:1 1111]"), ("print v256", "v256 = 0 0 0 0")])

MADE = {
    row.name: row
    for row in (
        Row("CommandRefusals", "each refusal of a command", [(COMMAND_REFUSALS, [Run(REFUSED_COMMANDS)])]),
        faults("DivisionFaults", "F1 DivideByZero", "x = 1 / (programIndex - {lane});"),
        faults("IndexFaults", "F2 Index", "x = a[programIndex == {lane} ? 9 : 0];", "uniform int a[4];\n"),
        faults("LaneIndexFaults", "F3 LaneIndex", "x = shuffle(x, programIndex == {lane} ? 4 : 0);"),
        faults("AssertFaults", "F4 Assert", "assert(programIndex != {lane});"),
        Row("RefusedLimits", "too many words of arrays, too many variables of a function, and no entry", LIMITS),
        Row("ManyOperators", "256 operators in one expression", [(SUM, [OF_SUM])]),
        Row("MostVariables", "256 variables of one function", [(MOST_VARIABLES + "}", [OF_VARIABLES])], is_computed=False),
    )
}
