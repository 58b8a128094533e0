"""Values as a prompt prints them: in the digits that are asked for, lanes that wait in brackets, long runs of equal elements told once."""

import itertools

ESCAPES = {7: "a", 8: "b", 9: "t", 10: "n", 11: "v", 12: "f", 13: "r", 39: "'", 92: "\\"}
NARROW = 3  # the columns of a value of which sixteen stand in a row
ELEMENTS, REPEATS = 200, 10


def sized(name):
    """The bits of a type, and whether it has a sign, by its name in a source or in an answer."""
    if name == "bool":
        return 1, False
    return int(name.removeprefix("unsigned ").lstrip("uint") or 32), name[0] == "i"


def value_in(number, bits, is_signed):
    """The number of a type that is congruent to this one."""
    low = number % (1 << bits)
    return low - (1 << bits) if is_signed and low >= 1 << (bits - 1) else low


def character(byte):
    if byte in ESCAPES:
        return "\\" + ESCAPES[byte]
    return chr(byte) if 32 <= byte <= 126 else f"\\{byte:03o}"


def text_of(value, name, letter=""):
    """A value of a type in the digits of a letter."""
    bits, is_signed = sized(name)
    word = value % (1 << bits)
    if letter == "/x":
        return f"0x{word:x}"
    if letter == "/t":
        return f"{word:b}"
    if letter == "/o":
        return f"0{word:o}" if word else "0"
    if letter == "/u":
        return str(word)
    if letter == "/c":
        return f"{value_in(value, 8, is_signed)} '{character(value % 256)}'"
    return ("false", "true")[value] if name == "bool" else str(value)


def rows_of(items, narrow):
    """Items on a line, or in rows of which each begins with an index."""
    size = 16 if narrow else 8
    if len(items) <= size:
        return "".join(f" {text}" for _, text in items)
    rows = [items[at : at + size] for at in range(0, len(items), size)]
    return "".join(f"\n[{row[0][0]}]" + "".join(f" {text}" for _, text in row) for row in rows)


def is_narrow(texts, name, letter):
    return letter in ("", "/d") and name != "bool" and all(len(text) <= NARROW for text in texts)


def lanes_text(values, active, name, letter="", first=0):
    """What is printed of a varying variable, of which some lanes wait, from a lane on."""
    texts = [text_of(value, name, letter) for value in values]
    items = [(lane, text if lane in active else f"({text})") for lane, text in enumerate(texts, first)]
    return rows_of(items, is_narrow(texts, name, letter))


def grouped(values, repeats):
    """Each value and how often it is told, with its first index: a run of more than so many once, other values one by one."""
    found, index = [], 0
    for value, run in itertools.groupby(values):
        count = len(list(run))
        for size in [count] if count > repeats else [1] * count:
            found.append((index, value, size))
            index += size
    return found


def cut(groups, most, repeats):
    """The groups that begin before so many elements are counted, a run as the threshold."""
    begins = list(itertools.accumulate([repeats if size > 1 else 1 for _, _, size in groups], initial=0))
    return [group for group, begin in zip(groups, begins) if begin < most]


def array_text(values, name, letter="", first=0, most=ELEMENTS, repeats=REPEATS):
    """What is printed of the elements of an array, from one on."""
    groups = grouped(values, repeats)
    kept = cut(groups, most, repeats)
    texts = [text_of(value, name, letter) for _, value, _ in kept]
    times = [f" <repeats {size} times>" if size > 1 else "" for _, _, size in kept]
    items = [(first + index, text + time) for (index, _, _), text, time in zip(kept, texts, times)]
    return rows_of(items, is_narrow(texts, name, letter)) + (" ..." if len(kept) < len(groups) else "")
