"""Which elements of arrays the lanes of a run touch together, as tools/meaning works it out, and the texts of a profile that tell it.

An access is one place in the source at which an array is indexed, where lanes may have different values of the index. It counts at the steps that
are done, by the value of its index before the step, in the lanes that do the step. One behind `&&`, `||` or `?` is not counted.
"""

from meaning.running import evaluated
from meaning.values import Fault

HEAD = b" line array        access      times      lanes   elements consecutive      equal  scattered  source\n"
COLUMNS = {"times": 10, "lanes": 11, "elements": 11, "consecutive": 12, "equal": 11, "scattered": 11}
# Calls whose value is one of all lanes, and those of which each lane has its own.
ONE = ("any", "all", "none", "reduce_add", "reduce_min", "reduce_max", "reduce_equal", "count", "packmask", "lanemask")
OWN = ("exclusive_scan_add", "exclusive_scan_and", "exclusive_scan_or", "insert", "rotate", "shift", "shuffle")


def varies(e):
    """Whether an expression may have different values in different lanes."""
    if e.kind == "library":
        if e.name in ONE or e.name in OWN:
            return e.name in OWN
        return varies(e.given[1]) if e.name in ("broadcast", "extract") else any(map(varies, e.given))
    if e.kind in ("read", "programIndex"):
        return e.kind == "programIndex" or e.variable.rate == "varying"
    return any(varies(it) for it, _ in parts_of(e))


def parts_of(e):
    """The operands of an expression in the order of evaluation, each with whether all lanes evaluate it."""
    if e.kind == "both":
        return [(e.left, True), (e.right, False)]
    if e.kind == "choice":
        return [(e.test, True), (e.first, False), (e.other, False)]
    if e.kind == "library":
        return [(it, True) for it in e.given]
    names = {"element": ("index",), "unary": ("operand",), "convert": ("operand",), "binary": ("left", "right")}
    return [(getattr(e, it), True) for it in names.get(e.kind, ())]


class Access:
    """An access: its statement, the array, what it does with the elements, whether all lanes do it, and its index."""

    def __init__(self, statement, variable, way, sure, index):
        self.statement, self.variable, self.way, self.sure, self.index, self.touched = statement, variable, way, sure, index, []

    @property
    def line(self):
        return self.statement.place[0]

    def row(self):
        order = lambda it: all(b == a + 1 for a, b in zip(it, it[1:]))
        one = lambda it: len(set(it)) == 1
        found = {"times": len(self.touched), "lanes": sum(map(len, self.touched)), "elements": sum(len(set(it)) for it in self.touched)}
        found |= {"consecutive": sum(map(order, self.touched)), "equal": sum(map(one, self.touched))}
        return found | {"scattered": sum(len(set(it)) for it in self.touched if not order(it) and not one(it))}


def reads_in(e, statement, sure=True):
    found = [it for part, always in parts_of(e) for it in reads_in(part, statement, sure and always)]
    return found + ([Access(statement, e.variable, "reads", sure, e.index)] if e.kind == "element" and varies(e.index) else [])


def written_in(s, way):
    if s.target.index is None:
        return []
    found = [Access(s, s.target.variable, way, True, s.target.index)] if varies(s.target.index) else []
    return reads_in(s.target.index, s) + found


def own_in(s):
    """The accesses of a statement's own step."""
    if s.kind in ("assign", "change"):
        return written_in(s, "writes" if s.kind == "assign" else "changes") + reads_in(s.value, s)
    arrays = lambda given: [it.start if it.kind == "array" else it for it in given]
    lists = {
        "declare": lambda: [s.value],
        "return": lambda: [s.value],
        "if": lambda: [s.test],
        "loop": lambda: [s.test],
        "do": lambda: [s.test],
        "check": lambda: [s.test],
        "switch": lambda: [s.selector],
        "domain": lambda: [bound for bounds in s.bounds for bound in bounds],
        "each value": lambda: [s.value],
        "call": lambda: arrays(s.arguments),
        "packed store": lambda: arrays([s.array, s.value]),
        "packed load": lambda: arrays([s.array]),
    }
    return [it for e in lists.get(s.kind, list)() if e is not None for it in reads_in(e, s)]


def accesses_in(s):
    """The accesses of a statement, those of its own step before those of the statements in it."""
    inner = {"block": lambda: s.statements, "if": lambda: [s.first, s.other], "loop": lambda: [s.body, s.update], "do": lambda: [s.body]}
    inner |= {"switch": lambda: [body for _, body in s.segments]} | {it: lambda: [s.body] for it in ("domain", "each lane", "each value")}
    return ([] if s.kind == "block" else own_in(s)) + [access for it in inner.get(s.kind, list)() for access in accesses_in(it)]


def accesses_of(program):
    return [access for function in program.functions for access in accesses_in(function.body)]


def touched_now(accesses, state):
    """What each access touches in the next step of a state, as long as the step has no fault."""
    task = state.top.tasks[0] if state.frames and state.top.tasks else None
    if task is None or task.kind == "round":
        return []
    found = []
    for access in accesses:
        if access.sure and access.statement is task.statement:
            try:
                values = evaluated(access.index, task.lanes, state)
            except Fault:
                continue
            found.append((access, [values[k] for k in sorted(task.lanes)]))
    return found


# ---- texts


def wanted_members(accesses):
    """What JSON has of accesses."""
    found = []
    for it in accesses:
        place = {"line": it.line, "array": it.variable.name, "access": it.way}
        if it.touched or not it.sure:
            found.append(place | ({"counted": True} | it.row() if it.sure else {"counted": False}))
    return found


def wanted_table(accesses, source, top, end):
    """The table of accesses: those first that touch the most elements which no vector load and no broadcast reaches."""
    made, text = sorted((it for it in accesses if it.touched), key=lambda it: -it.row()["scattered"]), ""
    lines = source.split("\n")
    for it in made[:top]:
        row = it.row()
        columns = "".join(f"{row[name]:{room}}" for name, room in COLUMNS.items())
        text += f"{it.line:5} {it.variable.name:12} {it.way:7}{columns}  {lines[it.line - 1].lstrip()[:40]}\n"
    passed = sum(not it.sure for it in accesses)
    if passed:
        text += f"{passed} accesses are not counted: they stand" if passed > 1 else "1 access is not counted: it stands"
        text += " behind &&, || or ?\n"
    return HEAD + (text + end).encode()


# ---- sums by arithmetic

# Rows, one element, a step of seven round sixteen, a falling order, half of the lanes, turns, one lane alone, each type of index, and a fault.
KNOWN = """uniform int a[64];
uniform int16 b[64];
export void go() {
    int i = programIndex;
    int three = 3;
    int x = a[programIndex];
    x += a[three];
    x += a[(programIndex * 7) % 16];
    b[63 - i] = (int16)x;
    if (programIndex % 2 == 0)
        b[i / 2] = (int16)a[i];
    for (uniform int k = 0; k < 5; ++k)
        b[i / 4 + k] += 1;
    if (i == 3)
        b[i - 1] = b[a[40 - i]];
    x = i < 2 && a[i] == 0 ? a[i] : 0;
    x = a[2] + a[programCount] + a[reduce_max(i)];
    x += a[i > 1 ? 1 : 0];
    x += a[(int8)i - 0] + a[(uint8)i] + a[(int16)i] + a[(uint16)i] + a[(uint32)i] + a[(int64)i] + a[(uint64)i];
    x += a[-i + 15] + a[i & -2];
    a[32 * i] = 1;
}
"""
KEYS = ("times", "lanes", "elements", "consecutive", "equal", "scattered")


def known_rows(width):
    """The accesses of KNOWN: line, array, what is done, and the counts, by arithmetic."""
    w, half, quarter = width, width // 2, width // 4
    row, one, apart = (1, w, w, 1, 0, 0), (1, w, 1, 0, 1, 0), (1, w, w, 0, 0, w)
    alone = (1, 1, 1, 1, 1, 0)
    turns = (5, 5 * w, 5 * quarter, 0, 5 if quarter == 1 else 0, 0 if quarter == 1 else 5 * quarter)
    rows = [(6, "a", "reads", row), (7, "a", "reads", one), (8, "a", "reads", apart), (9, "b", "writes", apart)]
    rows += [(11, "b", "writes", (1, half, half, 1, 0, 0)), (11, "a", "reads", (1, half, half, 0, 0, half)), (13, "b", "changes", turns)]
    rows += [(15, "b", "writes", alone), (15, "a", "reads", alone), (15, "b", "reads", alone), (16, "a", "reads", None), (16, "a", "reads", None)]
    rows += [(18, "a", "reads", (1, w, 2, 0, 0, 2))] + [(19, "a", "reads", row)] * 7
    return rows + [(20, "a", "reads", apart), (20, "a", "reads", (1, w, half, 0, 0, half))]


def known_members(width):
    found = []
    for line, array, way, counts in known_rows(width):
        counted = {"counted": True} | dict(zip(KEYS, counts)) if counts else {"counted": False}
        found.append({"line": line, "array": array, "access": way} | counted)
    return found
