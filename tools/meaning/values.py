"""Values, and the operations on them: whole numbers, wrapped into their types."""

COMPARISONS = {
    "==": lambda a, b: a == b,
    "!=": lambda a, b: a != b,
    "<": lambda a, b: a < b,
    "<=": lambda a, b: a <= b,
    ">": lambda a, b: a > b,
    ">=": lambda a, b: a >= b,
}
SHIFTS = ("<<", ">>")


class Fault(Exception):
    """A fault at a lane."""

    def __init__(self, name, lane):
        super().__init__(name)
        self.name, self.lane = name, lane


def bits(of_type):
    return int(of_type.lstrip("uint"))


def is_signed(of_type):
    return of_type[0] == "i"


def wrapped(of_type, value):
    if of_type == "bool":
        return int(value != 0)
    value %= 2 ** bits(of_type)
    return value - 2 ** bits(of_type) if is_signed(of_type) and value >= 2 ** (bits(of_type) - 1) else value


def joined(a, b):
    if a == "bool" or b == "bool":
        other = b if a == "bool" else a
        return "int32" if other == "bool" else other
    if bits(a) != bits(b):
        return a if bits(a) > bits(b) else b
    return b if is_signed(a) else a


def sum_type(of_type):
    if of_type is None:
        return None
    return f"{'int' if is_signed(of_type) else 'uint'}{min(64, 2 * bits(of_type))}" if of_type != "bool" else "int64"


def quotient(a, b):
    if b == 0:
        raise ZeroDivisionError
    return abs(a) // abs(b) * (1 if (a < 0) == (b < 0) else -1)


ARITHMETIC = {
    "+": lambda a, b: a + b,
    "-": lambda a, b: a - b,
    "*": lambda a, b: a * b,
    "/": quotient,
    "%": lambda a, b: a - b * quotient(a, b),
    "&": lambda a, b: a & b,
    "|": lambda a, b: a | b,
    "^": lambda a, b: a ^ b,
}


def computed(operator, of_type, a, b):
    """The value of an operation that is made in a type; of a shift b has a type of its own."""
    if operator in COMPARISONS:
        return int(COMPARISONS[operator](a, b))
    if operator in SHIFTS:
        amount = b % bits(of_type)
        return wrapped(of_type, a << amount if operator == "<<" else a >> amount)
    return wrapped(of_type, ARITHMETIC[operator](a, b))


def unary(operator, of_type, a):
    return wrapped(of_type, {"-": -a, "+": a, "~": ~a, "!": int(a == 0)}[operator])
