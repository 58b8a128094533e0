"""What is printed of lanes and of arrays: lanes that wait in brackets, runs of equal elements told once, long arrays cut, and some elements alone.

What is wanted is worked out here from the values, by the rules of GDB's manual and of docs/FROM_GDB.md: by lists, not as the program does it.
"""

from meaning.printed import array_text, lanes_text, sized, text_of, value_in

from .digits import TYPES
from .tried import Run, shown


def asks(name, source, typed, wanted, width=4):
    """A program, the lines that are typed, and what the answers end with."""
    last = "".join(f"{line}\n" for line in wanted).encode()

    def judge(text):
        return [] if text.endswith(last) else ["this is wanted at the end:", *shown(last), "it came:", *shown(text[-len(last) - 200 :])]

    file = "printing.ispc"
    return Run(name, "".join(f"{line}\n" for line in typed).encode(), ["debug", file, "--width", str(width)], judge, b"", data={file: source.encode()})


# ---- arrays

SIZE = 230


def element(place, index):
    """An array whose values come in runs of 9, 10, 11 and 12, then each by itself, then zeros."""
    starts = [0, 9, 19, 30, 42]
    if index < starts[-1]:
        return max(it for it, start in enumerate(starts) if start <= index) * 50 + place
    return index * 7 - 300 if index < 100 else 0


def of_type(number, name):
    bits, is_signed = sized(name)
    return number % 2 if name == "bool" else value_in(number, bits, is_signed)


def arrays_source():
    """An array of each type, filled element by element."""
    lines = [f"uniform {name} a{place}[{SIZE}];" for place, name in enumerate(TYPES)]
    lines += ["uniform int two = 2;", "uniform int number(uniform int place, uniform int i) {", "    uniform int v = 0;"]
    lines += ["    if (i < 100)", "        v = i * 7 - 300;"]
    for at, start, end in ((0, 0, 9), (1, 9, 19), (2, 19, 30), (3, 30, 42)):
        lines += [f"    if (i >= {start} && i < {end})", f"        v = {at * 50} + place;"]
    lines += ["    return v;", "}", "export void go() {", f"    for (uniform int i = 0; i < {SIZE}; i++) {{"]
    for place, name in enumerate(TYPES):
        lines.append(f"        uniform int n{place} = number({place}, i);")
        lines.append(f"        a{place}[i] = " + (f"(n{place} & 1) == 1;" if name == "bool" else f"({name})n{place};"))
    return "\n".join([*lines, "    }", "    two = 3 - 1;", "}", ""])


def arrays(width):
    """Arrays of all types in all digits, whole and some elements of them."""
    source = arrays_source()
    line = source[: source.index("two = 3")].count("\n") + 1
    typed, wanted = [f"break {line}", "continue"], []
    for place, name in enumerate(TYPES):
        values = [of_type(element(place, index), name) for index in range(SIZE)]
        for letter in ("", "/x", "/u"):
            it = f"a{place}"
            typed += [f"p{letter} {it}", f"p{letter} {it}@8", f"p{letter} {it}[8]@12", f"p{letter} {it}[two * 10 - 1]@two + 1", f"p{letter} {it}[{SIZE - 1}]"]
            wanted += [f"{it} =" + array_text(values, name, letter), f"{it}@8 =" + array_text(values[:8], name, letter)]
            wanted += [f"{it}[8]@12 =" + array_text(values[8:20], name, letter, 8)]
            wanted += [f"{it}[two * 10 - 1]@two + 1 =" + array_text(values[19:22], name, letter, 19)]
            wanted += [f"{it}[{SIZE - 1}] = " + text_of(values[-1], name, letter)]
    return asks(f"arrays at {width} lanes", source, typed, wanted, width)


def settings():
    """Other limits and thresholds, and what is said of them."""
    source = arrays_source()
    line = source[: source.index("two = 3")].count("\n") + 1
    values = [of_type(element(3, index), "int") for index in range(SIZE)]
    typed, wanted = [f"break {line}", "continue", "show print elements", "show print repeats"], []
    wanted += ["Limit on array elements to print is 200.", "Threshold for repeated print elements is 10."]
    for most, repeats in ((5, 10), (19, 10), (20, 10), (200, 9), (100000, 10), (30, 11), (12, 100000), (1, 1)):
        typed += [f"set print elements {most}", f"set print repeats {repeats}", "p a3"]
        wanted += ["a3 =" + array_text(values, "int", "", 0, most, repeats)]
    typed += ["set print elements 0", "set print repeats unlimited", "p a3", "show print elements", "show print repeats"]
    wanted += ["a3 =" + array_text(values, "int", "", 0, SIZE, SIZE), "Limit on array elements to print is unlimited.", "Threshold for repeated print elements is unlimited."]
    return asks("limits and thresholds of arrays", source, typed, wanted)


def refusals():
    """Elements that are not there, and what is no array."""
    source = arrays_source()
    line = source[: source.index("two = 3")].count("\n") + 1
    outside = f"C8 OutOfRange: a3 has {SIZE} elements, and the first has the number 0: `@` shows one or more of them."
    typed = [f"break {line}", "continue", f"p a3@{SIZE + 1}", f"p a3[{SIZE - 7}]@8", f"p a3[{SIZE}]@1", "p a3@0", "p a3@-1", "p a3[-1]@2", "p a3[programIndex]@2", "p a3@programIndex"]
    varying = "programIndex is different in each lane: before and behind `@` stand uniform values alone."
    no_array = "`@` shows elements of an array, and in scope in this frame or of the file no array is named "
    wanted = [outside] * 6 + [varying] * 2 + [no_array + "two.", no_array + "nothing."]
    last = [f"a3[{SIZE - 8}]@8 =" + array_text([0] * 8, "int", "", SIZE - 8)]
    return asks("elements that are not there", source, [*typed, "p two@2", "p nothing@2", f"p a3[{SIZE - 8}]@8"], [*wanted, *last])


# ---- lanes


def lanes_source(wanted):
    lines = ["export void go() {"]
    for place, name in enumerate(TYPES):
        value = "(programIndex & 1) == 1" if name == "bool" else f"({name})(programIndex * 37 - 5)"
        lines.append(f"    {name} v{place} = {value};")
    test = " || ".join(f"programIndex == {lane}" for lane in wanted)
    return "\n".join([*lines, f"    if ({test}) {{", "        v3 += 0;", "    }", "}", ""])


def lanes(width):
    """Local variables of all types where some lanes wait: printed, displayed, and listed."""
    active = [lane for lane in range(width) if lane % 3 != 1]
    typed, wanted = [f"step {len(TYPES) + 1}"], []
    values = {name: [of_type(lane * 37 - 5, name) if name != "bool" else lane % 2 for lane in range(width)] for name in TYPES}
    for letter in ("", "/x", "/t", "/o", "/u", "/c"):
        for place, name in enumerate(TYPES):
            typed += [f"p{letter} v{place}", f"p{letter} v{place}[1]", f"p{letter} v{place}[2]"]
            one, two = (text_of(values[name][lane], name, letter) for lane in (1, 2))
            wanted += [f"v{place} =" + lanes_text(values[name], active, name, letter), f"v{place}[1] = ({one})", f"v{place}[2] = {two}"]
    typed += ["info locals", "display v1", "display/x v2"]
    wanted += [f"v{place} =" + lanes_text(values[name], active, name) for place, name in enumerate(TYPES)]
    wanted += ["v1 =" + lanes_text(values["int8"], active, "int8"), "v2 =" + lanes_text(values["int16"], active, "int16", "/x")]
    return asks(f"lanes that wait, of {width}", lanes_source(active), typed, wanted, width)


CALLING = """void inner(int w) {
    w = w + 1;
}
export void go() {
    int v = programIndex;
    if (programIndex > 1)
        inner(v);
    v = 0;
}
"""


def frames():
    """In the frame of a caller the lanes wait that did not make the call."""
    typed = ["break 2", "continue", "p w", "up", "info locals", "p v", "bt full"]
    line = "v = (0) (1) 2 3"

    def judge(text):
        came = text.decode(errors="replace").splitlines()
        return ([] if came.count(line) == 2 else [f"{line!r} comes {came.count(line)} times"]) + ([] if "    " + line in came else ["a frame is shown without its variable"])

    return Run("lanes that wait in a caller's frame", "".join(f"{line}\n" for line in typed).encode(), ["debug", "printing.ispc"], judge, b"", data={"printing.ispc": CALLING.encode()})


def runs():
    return [arrays(width) for width in (4, 8, 16)] + [lanes(width) for width in (4, 8, 16)] + [settings(), refusals(), frames()]
