"""Checks of the debug adapter: where each lane waits, where each is a thread.

What is expected is read off the sources below by the lanes' numbers: for each stop the line of every lane, whose place is the first letter there,
but that of the test of a `do`. A lane that has a line of its own here does not do what comes next, so it is marked.
"""

from .adapter_frames import written
from .adapter_lanes import WAITS, WIDTHS
from .adapter_members import same

# Lanes part by what is left over of their number by 4. Those of 1 have 201 at line 11, and those of 0 have 100.
BRANCHES = """export void go() {
    int x = programIndex;
    if (x % 4 == 0) {
        x = 100;
    } else {
        if (x % 4 == 1) {
            x = 200;
        }
        x += 1;
    }
    if (x > 150) {
        return;
    }
    x = 5;
}
"""
BRANCH_STOPS = [(4, (4, 6, 6, 6)), (7, (11, 7, 9, 9)), (9, (11, 9, 9, 9)), (12, (14, 12, 14, 14)), (14, (14, 15, 14, 14)), (15, (15, 15, 15, 15))]

# In the first loop n begins at 0, 1, 2 and 3, and the turn in which it is 2 is cut short: the sums are 0, 1, 1 and 4. In the second the last ones
# break in the first turn, at 6, and the others leave after two, at 4, 5 and 5.
LOOPS = """export void go() {
    int n = programIndex % 4;
    int sum = 0;
    while (n > 0) {
        if (n == 2) {
            n -= 1;
            continue;
        }
        sum += n;
        n -= 1;
    }
    do {
        sum += 2;
        if (sum > 5) {
            break;
        }
    } while (sum < 4);
    sum = 0;
}
"""
LOOP_STOPS = [
    (5, (13, 5, 5, 5)),
    (6, (13, 9, 6, 9)),
    (9, (13, 9, 4, 9)),
    (5, (13, 13, 5, 5)),
    (6, (13, 13, 9, 6)),
    (9, (13, 13, 9, 4)),
    (5, (13, 13, 13, 5)),
    (9, (13, 13, 13, 9)),
    (15, (17, 17, 17, 15)),
    (17, (17, 17, 17, 18)),
    (17, (17, 17, 17, 18)),
    (18, (18, 18, 18, 18)),
]

# Each row of the first form has a round of all lanes and one of the lanes 0 and 1, and the odd lanes do not come to line 8. The second form is one
# of the odd lanes alone, with a round for each. In the third the lanes below 2 have one value, and the others another one.
FORMS = """export void go() {
    int x = 0;
    int seen = programIndex;
    foreach (j = 0 ... 2, i = 0 ... programCount + 2) {
        if (i % 2 == 1) {
            continue;
        }
        x += j + 1;
    }
    if (seen % 2 == 1) {
        foreach_active (k) {
            x += (int) k;
        }
        seen -= 1;
    }
    foreach_unique (v in seen / 2 == 0) {
        x = 0;
    }
    x = 1;
}
"""

# A lane with an odd number halves it, call by call, until it is 1: so lane 1 leaves at depth 2, lane 3 at 3, 5 and 7 at 4, and the others at 5.
CALLS = """int halves(int k) {
    if (k < 2) {
        return 0;
    }
    int rest = halves(k / 2);
    return rest + 1;
}
export void go() {
    int x = programIndex;
    if (x % 2 == 1) {
        x = halves(x);
    }
    x = 0;
}
"""


def column(text, line):
    """The column of the first letter of a line, or behind the brace of a `do`."""
    front = text.split("\n")[line - 1]
    return len(front) - len(front.lstrip(" " if front.strip() == "}" else " }")) + 1


def rows(client, lane):
    """The frames that a lane has: the depth, the line, the column, and whether it waits there."""
    told = client.ask("stackTrace", threadId=lane + 1)["stackFrames"]
    return [(it["id"], it["line"], it["column"], it["name"].endswith(WAITS)) for it in told]


def expected(text, at, lines):
    """The frames of each lane in a function that calls none, where the program stands at a line and the lanes at these."""
    return [[(1, line, column(text, line), line != at)] for line in lines]


def at_stops(client, text, breaks, stops):
    """Each lane stands where it has to at each stop, one after another, for each width; going back to the first one it does too."""
    with written(text) as path:
        for width in WIDTHS:
            client.launch(path, width=width, laneThreads=True)
            client.begin()
            client.breakpoints(*breaks)
            for at, lines in stops(width):
                client.move("continue")
                same((at, [rows(client, lane) for lane in range(width)]), (at, expected(text, at, lines)))
            for at, lines in stops(width)[-2::-1]:
                client.move("reverseContinue")
                same((at, [rows(client, lane) for lane in range(width)]), (at, expected(text, at, lines)))
            client.again()
        client.end()


def by_fours(stops):
    """Stops whose lines go by what is left over of a lane's number by 4."""
    return lambda width: [(at, [lines[lane % 4] for lane in range(width)]) for at, lines in stops]


def branches_of_lanes(client, examples):
    """A lane waits at the branch that it has to do, behind both where it has done its own, or at the closing brace where it has returned."""
    at_stops(client, BRANCHES, (4, 7, 9, 12, 14, 15), by_fours(BRANCH_STOPS))


def loops_of_lanes(client, examples):
    """A lane that has left a loop waits behind it, and one that has cut a turn short at the test."""
    at_stops(client, LOOPS, (5, 6, 9, 15, 17, 18), by_fours(LOOP_STOPS))


def row_stops(width):
    """The stops in the first form: two rows of a round of all lanes, and one of two. Behind the last round the lanes go on at line 10."""
    found = []
    for idle in (4, 4, 4, 10):
        lanes = range(width) if len(found) % 6 == 0 else (0, 1)
        line = lambda even, odd: [(odd if lane % 2 else even) if lane in lanes else idle for lane in range(width)]
        found += [(5, line(5, 5)), (6, line(8, 6)), (8, line(8, idle))]
    return found


def form_stops(width):
    """The stops of all three forms: a lane waits at the head while rounds are to come, whether it is in them or not."""
    odd = range(1, width, 2)
    found = row_stops(width)
    for lane in odd:
        # Behind the last round the odd lanes go on in the branch, and the even ones behind it.
        found += [(12, [12 if it == lane else 11 if lane < odd[-1] else 14 if it % 2 else 16 for it in range(width)])]
    return found + [(17, [17 if it < 2 else 16 for it in range(width)]), (17, [19 if it < 2 else 17 for it in range(width)]), (19, [19] * width)]


def forms_of_lanes(client, examples):
    """A lane waits at the head of a foreach form until its rounds are over, also one that has no part in them."""
    at_stops(client, FORMS, (5, 6, 8, 12, 17, 19), form_stops)


def in_halves(lane, top):
    """The frames of a lane where the frame at a depth stands at line 3, in which those lanes return that have 1 there."""
    if lane % 2 == 0:
        return [(1, 13, 5, True)]
    last = 1 + lane.bit_length()  # the depth at which it has 1
    deepest = min(top, last)
    line = (7, 1) if last < top else (3, 9) if last == top else (5, 5)
    calls = [(depth, *((11, 9) if depth == 1 else (5, 5)), False) for depth in range(deepest - 1, 0, -1)]
    return [(deepest, *line, last != top), *calls]


def calls_of_lanes(client, examples):
    """A lane that made a call waits at the call, one that did not at what it does next, and one that has returned at the closing brace."""
    with written(CALLS) as path:
        for width in WIDTHS:
            client.launch(path, width=width, laneThreads=True)
            client.begin()
            client.breakpoints(3, 13)
            for top in range(2, 2 + (width - 1).bit_length()):
                client.move("continue")
                same((top, [rows(client, lane) for lane in range(width)]), (top, [in_halves(lane, top) for lane in range(width)]))
            client.move("continue")
            same([rows(client, lane) for lane in range(width)], [[(1, 13, 5, False)]] * width)
            client.again()
        client.end()


PLACE_CHECKS = [branches_of_lanes, loops_of_lanes, forms_of_lanes, calls_of_lanes]
