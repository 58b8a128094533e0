"""The rounds of the foreach forms: the lanes of each, and the values of its index variables."""

import itertools

# As many rounds of a form are listed as a stored run can come to.
MOST_LISTED = 4096


def row_rounds(width, ranges):
    """Row by row, each row in chunks of as many indices as there are lanes."""
    first, rest = ranges[0], ranges[1:]
    if rest:
        for i in first:
            yield from ({k: (i, *point) for k, point in turn.items()} for turn in row_rounds(width, rest))
        return
    for at in range(0, first.stop - first.start if first else 0, width):
        yield {k: (i,) for k, i in enumerate(first[at : at + width])}


def tile_rounds(width, ranges):
    """The last two dimensions by tiles, row by row of tiles; a first one of three one value at a time."""
    if len(ranges) == 1:
        yield from row_rounds(width, ranges)
    elif len(ranges) == 3:
        for i in ranges[0]:
            yield from ({k: (i, *point) for k, point in turn.items()} for turn in tile_rounds(width, ranges[1:]))
    else:
        rows, columns = {4: (2, 2), 8: (2, 4), 16: (4, 4)}[width]
        for row, column in itertools.product(ranges[0][::rows], ranges[1][::columns]):
            tile = {k: (row + k // columns, column + k % columns) for k in range(width)}
            yield {k: point for k, point in tile.items() if point[0] in ranges[0] and point[1] in ranges[1]}


def rounds_of(s, lanes, width, evaluated):
    """The rounds of a form that these lanes reach: lanes, and for each index variable a value for each of them."""
    if s.kind == "domain":
        bounds = [(evaluated(low)[min(lanes)], evaluated(high)[min(lanes)]) for low, high in s.bounds]
        turns = (tile_rounds if s.is_tiled else row_rounds)(width, [range(low, high) for low, high in bounds])
        turns = itertools.islice(turns, MOST_LISTED)
        return [(frozenset(turn), [(v, {k: point[at] for k, point in turn.items()}) for at, v in enumerate(s.indices)]) for turn in turns]
    if s.kind == "each lane":
        return [(frozenset([k]), [(s.indices[0], {k: k})]) for k in sorted(lanes)]
    values = evaluated(s.value)
    distinct = list(dict.fromkeys(values[k] for k in sorted(lanes)))
    sets = [frozenset(k for k in lanes if values[k] == value) for value in distinct]
    return [(these, [(s.indices[0], {k: value for k in these})]) for these, value in zip(sets, distinct)]
