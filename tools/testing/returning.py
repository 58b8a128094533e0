"""What `finish` tells of the value that a function has returned: by the variable that gets it, in the lanes of the call.

What is wanted is worked out here by arithmetic: the type's width cuts it. A lane that the call leaves out shows what the variable held before.
"""

from meaning.printed import lanes_text, sized, text_of, value_in

from .digits import TYPES
from .tried import Run, shown

FILE = "returning.ispc"
FRONT = "Value returned:"


def asks(name, source, typed, wanted, width=4):
    """A program, the lines that are typed, and what is told of returned values, in order."""

    def judge(text):
        found = told_in(text.decode().splitlines())
        return [] if found == wanted else ["this is wanted:", *wanted, "it came:", *found, *shown(text[-600:])]

    lines = "".join(f"{line}\n" for line in typed).encode()
    return Run(name, lines, ["debug", FILE, "--width", str(width)], judge, b"", data={FILE: source.encode()})


def told_in(lines):
    """What is told of returned values, each with the rows that go on with it."""
    found, goes_on = [], False
    for line in lines:
        goes_on = line.startswith(FRONT) or goes_on and line.startswith("[")
        if line.startswith(FRONT):
            found.append(line)
        elif goes_on:
            found[-1] += f"\n{line}"
    return found


def told(values, name, lanes):
    return FRONT + lanes_text(values, lanes, name)


# ---- each type, and each width

def of_type(number, name):
    bits, is_signed = sized(name)
    return number % 2 if name == "bool" else value_in(number, bits, is_signed)


def types_source(name):
    """A function that is called by all lanes, by those from 2 on, and by one value for all."""
    back = "return !n;" if name == "bool" else "return n + n;"
    first = "programIndex == 1" if name == "bool" else f"({name})(programIndex - 2)"
    one = "true" if name == "bool" else "100"
    return f"""uniform {name} both = {one};

{name} twice({name} n) {{
    {back}
}}

uniform {name} doubled(uniform {name} n) {{
    {back}
}}

export void go() {{
    {name} x = {first};
    {name} y = twice(x);
    if (programIndex >= 2) {{
        x = twice(y);
        y = x;
    }}
    both = doubled(both);
    x = y;
}}
"""


def of_types(name, width):
    def twice(value):
        return 1 - value if name == "bool" else of_type(2 * value, name)

    first = [of_type(int(lane == 1) if name == "bool" else lane - 2, name) for lane in range(width)]
    second = [twice(value) for value in first]
    third = [twice(second[lane]) if lane >= 2 else first[lane] for lane in range(width)]
    both = text_of(twice(1 if name == "bool" else 100), name)
    wanted = [told(second, name, range(width)), told(third, name, range(2, width)), f"{FRONT} {both}"]
    typed = ["break twice", "break doubled", "run", "finish", "continue", "finish", "continue", "finish"]
    return asks(f"the returned values of {name} at {width} lanes", types_source(name), typed, wanted, width)


# ---- where lanes return, and to what

PLACES = """int pick(int n) {
    if (n > 1)
        return n * 10;
    n += 1;
    return -n;
}

uniform int down(uniform int n) {
    if (n == 0)
        return 7;
    uniform int below = down(n - 1);
    return below * 2;
}

void nothing(uniform int n) {
    n += 1;
}

int through(int n) {
    return pick(n);
}

export void go() {
    int v = pick(programIndex);
    uniform int u = down(2);
    nothing(3);
    pick(v);
    v = through(v);
    for (uniform int i = 0; i < 1; i++) {
        int64 wide = pick(v);
        v = (int)wide;
    }
    u = 1;
}
"""


def places(width):
    """Lanes that return at two statements, a recursion, and calls whose value no variable gets as it is returned."""
    picked = [lane * 10 if lane > 1 else -(lane + 1) for lane in range(width)]
    again = [value * 10 if value > 1 else -(value + 1) for value in picked]
    typed = ["break pick", "break nothing", "break 9", "run", "finish"]
    typed += ["continue", "continue", "continue", "finish", "finish", "finish"]
    typed += ["continue", "finish"]
    typed += ["continue", "finish"]
    typed += ["continue", "finish", "finish"]
    typed += ["continue", "finish"]
    typed += ["reverse-step", "reverse-finish"]
    wanted = [told(picked, "int", range(width)), f"{FRONT} 7", f"{FRONT} 14", f"{FRONT} 28", told(again, "int", range(width))]
    return asks(f"where lanes return at {width} lanes", PLACES, typed, wanted, width)


def stopped():
    """A breakpoint on the way, and the next `finish`; what is displayed comes behind the value."""
    typed = ["break pick", "break 4", "run", "display n", "finish", "finish", "up", "finish"]
    return asks("a stop on the way out", PLACES, typed, [told([-1, -2, 20, 30], "int", range(4))])


def runs():
    return [of_types(name, width) for name in TYPES for width in (4, 8, 16)] + [places(width) for width in (4, 8, 16)] + [stopped()]
