"""The values that were printed, by their numbers: they stay as they were printed, and the last hundred are kept.

What is wanted is worked out here from the values: by lists, not as the program does it.
"""

from meaning.printed import array_text, lanes_text, text_of

from .tried import Run, shown

FILE = "numbering.ispc"
SIZE, MOST, LISTED = 20, 100, 10
SOURCE = f"""uniform int table[{SIZE}];
uniform int8 low = -1;
uniform bool flag = true;

export void go() {{
    int x = programIndex * 3 - 4;
    for (uniform int i = 0; i < {SIZE}; i++)
        table[i] = i / 12;
    if (programIndex < 2)
        x += 100;
    x = 0;
}}
"""
LINE = 10  # where the first two lanes stand


def values(width):
    """What is typed for some values, and each as it is told by the digits of a letter."""
    x = [lane * 3 - 4 for lane in range(width)]
    table = [index // 12 for index in range(SIZE)]

    def lanes(letter):
        return lanes_text(x, range(2), "int", letter)

    def plus(letter):
        return "".join(f" {text_of(it + 1, 'int', letter)}" if lane < 2 else " ." for lane, it in enumerate(x))

    return [
        ("x", lanes),
        ("table", lambda letter: array_text(table, "int", letter)),
        ("table[3]@4", lambda letter: array_text(table[3:7], "int", letter, 3)),
        ("x + 1", plus),
        ("low", lambda letter: f" {text_of(-1, 'int8', letter)}"),
        ("flag", lambda letter: f" {text_of(1, 'bool', letter)}"),
        ("x[1]", lambda letter: f" {text_of(-1, 'int', letter)}"),
        ("low + 2", lambda letter: f" {text_of(1, 'int8', letter)}"),
    ]


def asks(name, typed, wanted, width=4):
    """The lines that are typed where the first two lanes stand, and what the answers end with."""
    last = "".join(f"{line}\n" for line in wanted).encode()
    lines = "".join(f"{line}\n" for line in [f"break {LINE}", "run", *typed]).encode()

    def judge(text):
        return [] if text.endswith(last) else ["this is wanted at the end:", *shown(last), "it came:", *shown(text[-len(last) - 300 :])]

    return Run(name, lines, ["debug", FILE, "--width", str(width)], judge, b"", data={FILE: SOURCE.encode()})


def each(width):
    """Each value by its number, by its place before the last, in all digits, when all were changed; what is refused gets no number."""
    found = values(width)
    typed, wanted = [], []
    for text, told in found:
        typed += [f"p {text}", "p nothing", "info locals", "p 1 / 0"]
    typed += ["set var x = 7", "set var low = 3", "echo ----"]
    wanted += ["----"]
    for number, (text, told) in enumerate(found, 1):
        for letter in ("", "/x", "/t", "/o", "/u", "/c", "/d"):
            typed += [f"p{letter} ${number}", f"print{letter} $${len(found) - number}"]
            wanted += [f"${number} ={told(letter)}"] * 2
    typed += ["p $", "p $$", " print  $ ", "p/x $"]
    last, before = (f"${number} ={found[number - 1][1]('')}" for number in (len(found), len(found) - 1))
    wanted += [last, before, last, f"${len(found)} ={found[-1][1]('/x')}"]
    typed += ["show values", "show values 2"]
    wanted += [f"${number} ={told('')}" for number, (_, told) in enumerate(found, 1)] * 2
    return asks(f"each value by its number at {width} lanes", typed, wanted, width)


def many():
    """More values than are kept, and what is said of those that are not."""
    count = MOST + 30
    typed = [f"p {number} * 2" for number in range(1, count + 1)]
    listed = lambda first, end: [f"${number} = {number * 2}" for number in range(first, end)]
    typed += ["echo ----", "p $", "p $31", f"p $${MOST - 1}", "show values", "show values 80", "show values 33", "show values 128"]
    wanted = ["----", f"${count} = {count * 2}", "$31 = 62", "$31 = 62", *listed(count - LISTED + 1, count + 1), *listed(75, 85), *listed(31, 38), *listed(123, 131)]
    for name in ("$30", f"$${MOST}", "$0", "$500"):
        typed += [f"p {name}"]
        wanted += [f"There is no value {name}: values printed so far: {count}, and the last {MOST} are kept."]
    return asks("more values than are kept", typed, wanted)


def none():
    """Where no value was printed."""
    said = "No value was printed yet: `print T` shows one, and gives it a number."
    typed = ["display x", "echo ----", "p $", "p $1", "show values"]
    return asks("no value was printed", typed, ["----", said, said, "No value was printed yet."])


def again():
    """An empty line prints again, by the next number; a line at a stop prints too; what is formatted has a number."""
    typed = ["p x", "", "p/x low", "commands 1", "p low + 1", "end", "echo ----", "run", "show values"]
    x = lanes_text([-4, -1, 2, 5], range(2), "int")
    wanted = [f"$1 ={x}", f"$2 ={x}", "$3 = -1", "$4 = 0"]
    return asks("values of lines that repeat", typed, wanted)


def runs():
    return [each(width) for width in (4, 8, 16)] + [many(), none(), again()]
