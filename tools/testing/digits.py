"""Values in the digits that are asked for at the prompt: of all types, by what Python computes of the numbers; and what is displayed.

A variable of the file has one value, a local one a value in each lane, of which some wait where the program stands at last.
"""

from meaning.printed import lanes_text, sized, text_of, value_in

from .tried import Run, shown

TYPES = ("bool", "int8", "int16", "int", "int64", "unsigned int8", "unsigned int16", "unsigned int", "unsigned int64")
LETTERS = ["", "/x", "/t", "/o", "/u", "/c"]
ACTIVE = 3  # the lanes that are active where values of expressions are asked for


def of_file(name, number):
    """The value of the variable of the file of a type."""
    bits, is_signed = sized(name)
    return number % 2 if name == "bool" else value_in(number, bits, is_signed)


def of_lane(name, lane):
    """The value of the local variable of a type in a lane."""
    bits, is_signed = sized(name)
    return lane % 2 if name == "bool" else value_in(lane * 37 - 5, bits, is_signed)


def source(numbers):
    """A variable of the file and a local one of each type, and a step for the first lanes alone."""
    lines = []
    for place, (name, number) in enumerate(zip(TYPES, numbers)):
        value = of_file(name, number)
        lines.append(f"uniform {name} f{place} = {('false', 'true')[value] if name == 'bool' else value};")
    lines.append("export void go() {")
    for place, name in enumerate(TYPES):
        value = "(programIndex & 1) == 1" if name == "bool" else "programIndex * 37 - 5"
        lines.append(f"    {name} v{place} = {value};")
    return "\n".join([*lines, f"    if (programIndex < {ACTIVE}) {{", "        v3 += 0;", "    }", "}", ""])


def asked(numbers, width):
    """The lines that are typed, each with its answer."""
    found = []
    for letter in LETTERS:
        for place, (name, number) in enumerate(zip(TYPES, numbers)):
            values = [of_lane(name, lane) for lane in range(width)]
            lanes = [text_of(value, name, letter) for value in values]
            active = [it if lane < ACTIVE else "." for lane, it in enumerate(lanes)]
            one = text_of(of_file(name, number), name, letter)
            found.append((f"p{letter} f{place}", f"f{place} = {one}"))
            found.append((f"p{letter} v{place}", f"v{place} =" + lanes_text(values, range(ACTIVE), name, letter)))
            found.append((f"p{letter} v{place}[1]", f"v{place}[1] = {lanes[1]}"))
            found.append((f"p{letter} ({name})v{place}", f"({name})v{place} = {' '.join(active)}"))
            found.append((f"p{letter} ({name})f{place}", f"({name})f{place} = {one}"))
    return found


def ends_so(wanted):
    def judge(text):
        came = text.decode(errors="replace").splitlines()[-len(wanted) :]
        wrong = [f"{found!r}, and {right!r} is wanted" for found, right in zip(came, wanted) if found != right]
        return wrong[:8] if len(came) == len(wanted) else ["it has few lines:", *shown(text)]

    return judge


def digits(numbers, width):
    """All types in all digits, for gangs of a width."""
    lines = asked(numbers, width)
    typed = f"step {len(TYPES) + 1}\n" + "".join(f"{it}\n" for it, _ in lines)
    file = "digits.ispc"
    return Run(f"digits of {numbers[1]} and its like at {width} lanes", typed.encode(), ["debug", file, "--width", str(width)], ends_so([line for _, it in lines for line in it.splitlines()]), b"", data={file: source(numbers).encode()})


SHOWN_SOURCE = b"""uniform int total = 0;
export void go() {
    int v = programIndex;
    total = 5;
    v = v - 2;
    v = 12 / (v - 1);
}
"""


def displays():
    """What is displayed, told behind each move in the order of its number; what has no value there says why, what is not in scope is left out."""
    typed = b"display v + total\nstep\ndisplay total\ndisplay/x v\ndisplay 12 / (v - 1)\ninfo display\nundisplay 2\nstep\nstep\n"
    moves = [[0, 1, 2, 3], [5, 6, 7, 8], [3, 4, 5, 6]]
    spaced = lambda values: " ".join(str(it) for it in values)
    first = f"1: v + total = {spaced(moves[0])}\n".encode()
    listed = b"1: v + total\n2: total\n3: /x v\n4: 12 / (v - 1)\n"
    faulty = b"4: 12 / (v - 1) has no value: F1 DivideByZero: a division by 0 in lane 1\n"
    second = f"1: v + total = {spaced(moves[1])}\n3: v = 0x0 0x1 0x2 0x3\n".encode() + faulty
    bits = " ".join(f"{(lane - 2) % (1 << 32):#x}" for lane in range(4))
    last = f"1: v + total = {spaced(moves[2])}\n3: v = {bits}\n".encode()
    third = b"4: 12 / (v - 1) has no value: F1 DivideByZero: a division by 0 in lane 3\n"

    def judge(text):
        rest, why = text, []
        for part in (first, listed, second, last + third):
            front, found, rest = rest.partition(part)
            why += [] if found else [f"{part!r} does not follow:", *shown(front)]
        return why

    return Run("what is displayed is told behind each move", typed, ["debug", "displayed.ispc"], judge, b"", data={"displayed.ispc": SHOWN_SOURCE})


LARGEST = [1, 127, 32767, 2147483647, 9223372036854775807, 255, 65535, 4294967295, 18446744073709551615]
LOWEST = [0, -128, -32768, -2147483648, -9223372036854775808, 0, 0, 0, 0]
BETWEEN = [1, -100, -30000, 65, -9, 200, 10, 39, 92]


def runs():
    return [digits(numbers, width) for numbers in (LARGEST, LOWEST, BETWEEN) for width in (4, 8, 16)] + [displays()]
