"""The library's calls: sums, lists and maps over the lanes that call."""

from .values import Fault, bits, wrapped

INDEXED = ("broadcast", "extract", "insert")


def called(e, given, lanes, width):
    """What a call gives each of its lanes."""
    of_type, order = e.type, sorted(lanes)
    first = given[0] if given else {}
    values = [first[k] for k in order] if given else []
    whole = [first.get(k, 0) for k in range(width)]
    if e.name in REDUCED:
        found = REDUCED[e.name](values)
        return {k: wrapped(of_type, found) for k in lanes}
    if e.name in SCANNED:
        return {k: wrapped(of_type, SCANNED[e.name](values[:at])) for at, k in enumerate(order)}
    if e.name in MAPPED:
        return {k: wrapped(of_type, MAPPED[e.name](e.given[0].type, *(it[k] for it in given))) for k in lanes}
    if e.name in ("lanemask", "packmask"):
        return {k: sum(2**j for j in lanes if e.name == "lanemask" or first[j]) for k in lanes}
    if e.name in INDEXED:
        index = given[1][order[0]]
        if not 0 <= index < width:
            raise Fault("F3 LaneIndex", order[0])
        return {k: given[2][k] if e.name == "insert" and k == index else whole[k if e.name == "insert" else index] for k in lanes}
    if e.name in ("rotate", "shift"):
        to = {k: k + given[1][k] for k in lanes}
        return {k: whole[j % width] if e.name == "rotate" else whole[j] if 0 <= j < width else 0 for k, j in to.items()}
    for it in given[1:-1]:
        whole += [it.get(k, 0) for k in range(width)]
    for k in order:
        if not 0 <= given[-1][k] < len(whole):
            raise Fault("F3 LaneIndex", k)
    return {k: whole[given[-1][k]] for k in lanes}


def folded(operation, start):
    def fold(values):
        found = start
        for it in values:
            found = operation(found, it)
        return found

    return fold


REDUCED = {
    "any": any,
    "all": all,
    "none": lambda values: not any(values),
    "reduce_add": sum,
    "reduce_min": min,
    "reduce_max": max,
    "reduce_equal": lambda values: len(set(values)) == 1,
    "count": sum,
}
SCANNED = {
    "exclusive_scan_add": sum,
    "exclusive_scan_and": folded(lambda a, b: a & b, -1),
    "exclusive_scan_or": folded(lambda a, b: a | b, 0),
}
MAPPED = {
    "min": lambda of_type, a, b: min(a, b),
    "max": lambda of_type, a, b: max(a, b),
    "clamp": lambda of_type, a, low, high: min(max(a, low), high),
    "abs": lambda of_type, a: abs(a),
    "select": lambda of_type, test, a, b: a if test else b,
    "popcnt": lambda of_type, a: bin(a % 2 ** bits(of_type)).count("1"),
}
