"""Why the prompt refuses a value, an expression or a line: the values of each of the nine types at both ends, in the top frame and in an outer one;
nestings, rates and faults of expressions; how many conditions, counts, watches and lines there is room for; and where nothing is told or kept.

The ends of a type, the columns and the numbers are worked out here by arithmetic.
"""

from meaning.printed import lanes_text

from .conditions import MARK, judged
from .tried import Run

NAME = "told.ispc"
WIDTHS = (4, 8, 16)
INTEGERS = [f"{sign}int{bits}" for sign in ("", "u") for bits in (8, 16, 32, 64)]
NESTINGS, CONDITIONS, STOPS, FRAME_WATCHES, LISTED, LONGEST, FRAMES = 64, 64, 64, 16, 128, 256, 64


def ends(name):
    bits = int(name.lstrip("uint"))
    return (0, 2**bits - 1) if name[0] == "u" else (-(2 ** (bits - 1)), 2 ** (bits - 1) - 1)


TYPED = "".join(f"    uniform {it} u_{it} = 1;\n    {it} v_{it} = programIndex;\n" for it in INTEGERS)
SOURCE = f"""uniform int total = 0;
uniform uint16 rows[3];
void inner(int k) {{
    uniform bool is_set = false;
    total += 1;
    uniform int8 small = 1;
    total += 1;
}}
void outer(int k) {{
    uniform int8 middle = 2;
    uint16 low = k;
    inner(k);
}}
export void go() {{
{TYPED}    bool even = programIndex % 2 == 0;
    outer(programIndex);
    total = 5;
}}
""".encode()
ENDLESS = b"int f(int k) {\n    return f(k + 1);\n}\nexport void go() {\n    int x = f(0);\n}\n"


def marked(line, at):
    return f"    {line}\n    {' ' * at}^\n"


def of_types(width):
    """Both ends of a type are set, and what is one beyond is refused with them; a number of more than 64 bits is none."""
    found = [("break 7", ("breakpoint 1 at line 7",)), ("run", ("breakpoint 1:",)), *of_type("small", "int8", 1), *of_bool("is_set", 1)]
    found += [(f"set var rows[2] = {value}", (answer,)) for value, answer in ((65535, "rows[2] = 65535\n"), (65536, "the values of rows are 0 to 65535.\n"))]
    found += [("up", ("#1  outer at",)), *of_type("middle", "int8", 1), *of_type("low", "uint16", width), ("up", ("#2  go at",))]
    for name in INTEGERS:
        found += of_type(f"u_{name}", name, 1) + of_type(f"v_{name}", name, width)
    return "values of types", [*found, *of_bool("even", width)], SOURCE


def of_type(name, kind, count):
    """Lines that set a variable of a type, and one lane of it if it has some."""
    low, high = ends(kind)
    refused = f"C8 OutOfRange: the values of {name} are {low} to {high}.\n"
    found = [(f"set var {name} = {value}", (f"{name} ={lanes_text([value] * count, range(count), kind)}\n",)) for value in (low, high)]
    found += [(line, (refused + marked(line, len("set var ")),)) for line in (f"set var {name} = {value}" for value in (low - 1, high + 1) if abs(value) < 2**64)]
    if count > 1:
        line = f"set var {name}[{count - 1}] = {low - 1}"
        found += [(f"set var {name}[{count - 1}] = {low}", (f"{name}[{count - 1}] = {low}\n",)), (line, (refused + marked(line, len("set var ")),))]
    return found


def of_bool(name, count):
    refused = f"C8 OutOfRange: the values of {name} are `false` and `true`.\n"
    found = [(f"set var {name} = {value}", (f"{name} ={lanes_text([word] * count, range(count), 'bool')}\n",)) for value, word in (("true", 1), ("0", 0), ("1", 1))]
    return found + [(line, (refused + marked(line, len("set var ")),)) for line in (f"set var {name} = {value}" for value in (2, -1))]


def of_expressions(width):
    """As many nestings as there may be, and one more; a lane's number that varies; a fault; and texts that are no expressions."""
    nested = lambda count: "(" * count + "1" + ")" * count
    deep = f"print {nested(NESTINGS + 1)}"
    at = len("print ") + NESTINGS
    refused = lambda line, at, name, why: (line, (f"{name}, column {at + 1}: {why}\n" + marked(line, at),))
    rate = "a varying value stands where a uniform one is wanted."
    found = [
        ("break 5", ("breakpoint 1 at line 5",)),
        ("run", ("breakpoint 1:",)),
        (f"print {nested(NESTINGS)}", (f"{nested(NESTINGS)} = 1\n",)),
        refused(deep, at, "S4 TooDeep", "an expression has at most 64 nestings."),
        refused("print extract(k, k)", len("print extract(k, "), "S7 Rate", rate),
        refused("print total + nobody", len("print total + "), "S5 UnknownName", "no variable of this name is in scope in this frame or of the file."),
        refused("print total ` 2", len("print total "), "S1 BadByte", "nothing in an expression begins with this byte."),
        refused("print 1 + 99999999999999999999", len("print 1 + "), "S2 BadNumber", "this is no number, or too large a one."),
        refused("print inner(k)", len("print "), "S9 NoOverload", "a function of the program is not called from the prompt: `break NAME` stops in it."),
        refused("print is_set + rows", len("print is_set + "), "S8 Type", "the type does not fit: an array has no value without an index, and a bool is no number."),
        ("print 1 / (k - 3)", ("F1 DivideByZero: a division by 0 in lane 3; the expression has no value.\n",)),
        ("print rows[k + 1]", ("F2 Index: an index outside the array in lane 2; the expression has no value.\n",)),
        ("when 1 / (total - total)", ("it has a value at no moment of the run\n",)),
        ("when 1 / (k - 3) > 5", ("1 / (k - 3) > 5: 0 at each of the ",) if width < 4 else ("it has a value at no moment of the run\n",)),
        ("condition 1 1 / (k - 1) > 0", ("1 stops only if 1 / (k - 1) > 0\n",)),
        ("run", ("it stops, since its condition has no value here: 1 / (k - 1) > 0\nF1 DivideByZero: a division by 0 in lane 1; the expression has no value.\n",)),
        ("disable 1", ("disabled 1\n",)),
        ("finish", ("outer at",)),
        ("reverse-step 2", ("",)),
    ]
    return "expressions without a value", found, SOURCE


def of_depths(width):
    """The call for which there is no frame any more."""
    found = [("continue", (f"F5 CallDepth: {FRAMES} frames exist in lane 0; nothing of this step is done:\n", f"f at {NAME}:2:5, depth {FRAMES}, step {FRAMES - 1}, lanes "))]
    found += [("up 63", (f"#{FRAMES - 1}  go at {NAME}:5:5, lanes",)), ("up", ("Initial frame selected; you can't go up.\n",)), ("print k", ("C2 NoSuchName: ",))]
    return "a call without a frame", [*found, ("frame 62", ("#62  f at",)), ("print k[3]", ("k[3] = 0\n",)), ("frame 0", ("#0  f at",)), ("print k", ("k =" + f" {FRAMES - 2}" * width,))], ENDLESS


def of_rooms(width):
    """Watches of functions, conditions and counts, up to as many as there may be."""
    found = [("break 7", ("breakpoint 1 at line 7",)), ("run", ("breakpoint 1:",)), ("delete", ("all breakpoints and watches are deleted\n",))]
    found += [("watch small", (f"watch {number}: small, while this frame is there\n",)) for number in range(2, 2 + FRAME_WATCHES)]
    full = f"C11 TableFull: {FRAME_WATCHES} variables and expressions of functions are watched, as many as can be; `delete N` ends one.\n"
    found += [(line, (full,)) for line in ("watch small", "watch small + 1", "watch -w small")]
    first = 2 + FRAME_WATCHES
    found += [("break 5", (f"breakpoint {number} at line 5\n",)) for number in range(first, first + STOPS)]
    last = first + STOPS - 1
    found.append(("break 5", (f"C11 TableFull: {STOPS} breakpoints and watches are there; `delete N` makes room.\n",)))
    # The conditions are those of the breakpoints; then a watch has none.
    found += [(f"condition {number} total > {number}", (f"{number} stops only if total > {number}\n",)) for number in range(first, last + 1)]
    none = lambda number: f"{number} stops always: {CONDITIONS} conditions are there; `condition N` takes one away\n"
    found += [("condition 2 total > 2", (none(2),)), (f"condition {first}", (f"{first} stops always\n",)), ("condition 2 total > 2", ("2 stops only if total > 2\n",))]
    found += [(f"ignore {number} {number}", (f"{number}: {number} stops will be passed\n",)) for number in range(first, last + 1)]
    nothing = lambda number: f"{number}: nothing changes, since {CONDITIONS} counts are there; `ignore N 0` takes one away\n"
    found += [("ignore 2 1", (nothing(2),)), (f"ignore {last} 0", (f"{last}: 0 stops will be passed\n",)), ("ignore 2 1", ("2: 1 stop will be passed\n",))]
    return "rooms that are full", [*found, ("condition 99 total", ("C10 NoSuchNumber: no breakpoint or watch has the number 99; `info breakpoints` lists them.\n",))], SOURCE


def of_lists(width):
    """Lines that a breakpoint does: one of as many bytes as there may be, and of one more; as many lines, and one more; and `silent`."""
    fitting = "echo " + "x" * (LONGEST - len("echo "))
    long = "C1 BadCommand: a line of a list has at most 256 bytes, so this one is left out.\n"
    full = f"C11 TableFull: {LISTED} lines of breakpoints and watches are there, as many as can be, so this one is left out.\n"
    found = [("break 5", ("breakpoint 1 at line 5",)), ("commands 1\nsilent", ("lines for 1, up to a line `end`:\n`silent` is left out: what a stop shows is always shown.\n",))]
    lines = [fitting, fitting + "x", *["echo a"] * (LISTED - 1), "echo b", "end"]
    typed = "\n".join(["commands 1", *lines])
    return "lists that are full", [found[0], (f"commands 1\nsilent\nend", found[1][1]), (typed, ("lines for 1, up to a line `end`:\n" + long + full,)), ("run", ("breakpoint 1:",)), ("quit", ())], SOURCE


def of_kept(width):
    """What is told of the past where a limit is set to it: since when a value is there, or what it was at the first step that is kept."""
    found = [("break 7", ("breakpoint 1 at line 7",)), ("run", ("breakpoint 1:",)), ("last total", ("total = 0 -> 1 by this statement:\n",)), ("step 2", ("inner at",))]
    found += [("set record full insn-number-max 3", ("up to 3 steps and changes can be taken back\n",)), ("finish", ("outer at",)), ("changes total", ("1 -> 2\n", "at the first step that is kept: 1\n"))]
    return "a past with a limit", [*found, ("step 3", ("the program has ended",)), ("changes rows[1]", ("rows[1] has had its value since the first step that is kept\n",))], SOURCE


def of_values(width):
    """Values by their numbers, where there is none yet, or no such one."""
    none = "No value was printed yet: `print T` shows one, and gives it a number.\n"
    found = [("print $", (none,)), ("print $3", (none,)), ("print total", ("total = 0\n",)), ("print $1", ("$1 = 0\n",))]
    found += [("print $2", ("There is no value $2: values printed so far: 1, and the last 100 are kept.\n",)), ("print $$1", ("There is no value $$1: values printed so far: 1, and the last 100 are kept.\n",))]
    return "values by their numbers", [*found, *[("print total + 1", ("total + 1 = 1\n",))] * 100, ("print $1", ("There is no value $1: values printed so far: 101, and the last 100 are kept.\n",)), ("print $2", ("$2 = 1\n",))], SOURCE


# Lines that lack something, each with what it is to have.
USAGES = [
    ("ignore", "`ignore N COUNT`"), ("ignore 1", "`ignore N COUNT`"), ("condition", "`condition N EXPRESSION`"), ("commands x", "`commands N`"),
    ("when", "`when total > 100`"), ("last", "`last total`"), ("changes", "`changes total`"), ("goto", "`goto 4711`"), ("goto x", "`goto 4711`"),
    ("restart", "The number of a checkpoint follows `restart`"), ("checkpoint 3", "`checkpoint` stands alone"),
    ("delete checkpoint x", "The number of a checkpoint may follow `delete checkpoint`"), ("info lanes 3", "`info lanes` stands alone"),
    ("watch -w rows[x]", "`watch -w NAME[N]`"), ("set listsize 0", "`set listsize`"),
]


def of_usages(width):
    return "lines that lack something", [(line, (told,)) for line, told in USAGES], SOURCE


def runs():
    found = []
    for width in WIDTHS:
        for part in (of_types, of_expressions, of_depths, of_rooms, of_lists, of_kept, of_values, of_usages):
            name, rows, source = part(width)
            words = ["debug", NAME, "--width", str(width)]
            ended = rows[-1][0] == "quit"
            rows = rows[:-1] if ended else rows
            typed = f"{MARK}\n" + "".join(f"{line}\n{MARK}\n" for line, _ in rows)
            found.append(Run(f"{name}, {width} lanes", typed.encode(), words, judged([texts for _, texts in rows]), b"", data={NAME: source}))
    return found
