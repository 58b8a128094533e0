"""The program that people and editors sit at, where things fail: in a page, a picture, a profile, a ported source, lines at the prompt and an editor's messages.

Each allocation is refused in turn. A page, a picture, a profile and a ported source are written whole or not at all. At the prompt the lines before are
answered, and an editor is sent whole messages, a front of them or others behind a request that is refused. Each ends with `memory`, or goes on
where a file is read in smaller pieces. And the devices fail after each byte.
"""

import json
import re

from .hostile import DEVICES_OF_RUNS, MEMORY, READ_FAULT, Case, task
from .tried import Run

CRATE = "rinddecade"
# So many allocations a run does without: where a file is read in smaller pieces, or a list asks first for more than it needs.
PIECES = 5
NAME = "lanes.ispc"
PORTED = b"""#define N 2
enum { A, B };
int f(int x) { return x; }
export void go() { int i = N, j = f(f(i)); uniform int a[B + 1] = { A }; i = j++ > 0 && f(i) > 1; }
"""
LINES = b"step\nprint x\nbreak 5\ncontinue\nreverse-step\nundo\ninfo locals\nbacktrace\nhelp step\n"
GROWTH = b"set record full insn-number-max 6\n"
GROWN = b"up to 6 steps and changes can be taken back\n"
# What stands where a variable is not shown.
UNSHOWN = re.compile(rb"\w+ = there is no memory to show it|C12 Memory: there is no memory to show this\.")
REFUSED = b"C12 Memory: there is no memory for so long a history; the limit is as before.\n    %s    ^\n" % GROWTH
REQUESTS = (
    ("initialize", {"adapterID": "ispc"}),
    ("launch", {"program": NAME}),
    ("setBreakpoints", {"source": {"path": NAME}, "breakpoints": [{"line": 5}]}),
    ("configurationDone", {}),
    ("threads", {}),
    ("next", {"threadId": 1}),
    ("stackTrace", {"threadId": 1}),
    ("scopes", {"frameId": 1}),
    ("variables", {"variablesReference": 11}),
    ("evaluate", {"expression": "print x", "context": "repl"}),
    ("stepBack", {"threadId": 1}),
    ("restart", {}),
    ("disconnect", {}),
)


def framed(requests):
    """The frames of requests, one behind another."""
    messages = (json.dumps({"seq": at, "type": "request", "command": name, "arguments": given}) for at, (name, given) in enumerate(requests, 1))
    return b"".join(b"Content-Length: %d\r\n\r\n%s" % (len(it), it.encode()) for it in messages)


def messages_of(output):
    """The messages of frames, or None where one is not whole or has not the number of its place."""
    found = []
    while output:
        head, _, rest = output.partition(b"\r\n\r\n")
        length = int(head.removeprefix(b"Content-Length: ") or 0)
        if not 0 < length <= len(rest):
            return None
        found.append(json.loads(rest[:length]))
        output = rest[length:]
    return found if [it["seq"] for it in found] == [*range(1, len(found) + 1)] else None


def whole_or_nothing(whole, end):
    return end == MEMORY


def front_of_answers(whole, end):
    """The answers of the lines before; or all of them, and that the history limit stays as it was, or that there is no memory for a value."""
    is_front = end[0] == 2 and end[2] == MEMORY[2] and whole[1].startswith(end[1]) and end[1] != whole[1]
    return is_front or end == (0, whole[1].removesuffix(GROWN) + REFUSED, b"") or lacks_values(whole, end)


def lacks_values(whole, end):
    """Whether all is told, but that in place of some variables' values stands that there is no memory to show them."""
    lines, given = whole[1].split(b"\n"), end[1].split(b"\n")
    is_told = all(one == other or (b" = " in one and UNSHOWN.fullmatch(other)) for one, other in zip(lines, given))
    return (end[0], end[2]) == (0, b"") and len(lines) == len(given) and is_told


def messages(whole, end):
    """Whole messages: a front of those of a whole run, or up to a request that is refused for memory, behind which it goes on."""
    wanted, given = messages_of(whole[1]), messages_of(end[1])
    if given is None:
        return False
    if (end[0], end[2]) == (2, MEMORY[2]) and given == wanted[: len(given)]:
        return len(given) < len(wanted)
    first = next((one for one, other in zip(given, wanted) if one != other), {})
    return (end[0], end[2]) == (0, b"") and first.get("success") is False and first["message"] in ("memory", "out of memory")


def frames_read(case):
    """Standard input fails after each byte: the whole messages before are answered."""
    why, ends = [], [len(framed(REQUESTS[:count])) for count in range(len(REQUESTS))]
    for number in range(len(case.commands)):
        whole = case.commands[: max(it for it in ends if it <= number)]
        wanted, came = (3, case.ended(whole)[1], READ_FAULT), case.ended(READ_BYTES=number)
        if came != wanted:
            why.append(f"after {number} bytes: {came!r}, and not {wanted!r}")
    return case.result(f"a read that fails after each of {len(case.commands)} bytes", why)


def runs(root):
    """Runs, how each may end where an allocation is refused, and what else is tried with it."""
    data = {NAME: (root / "examples" / NAME).read_bytes()}
    return [
        (Run("a page", b"", ["explain", "C12"]), whole_or_nothing, [Case.writes]),
        (Run("a picture", b"", ["picture", NAME, "--watch", "x"], data=data), whole_or_nothing, [Case.writes]),
        (Run("a profile", b"", ["profile", NAME, "--by", "function"], data=data), whole_or_nothing, [Case.writes]),
        (Run("a profile of all widths", b"", ["profile", NAME, "--compare"], data=data), whole_or_nothing, [Case.writes]),
        (Run("a ported source", b"", ["port", "go.ispc"], data={"go.ispc": PORTED}), whole_or_nothing, [Case.writes]),
        (Run("lines at the prompt", LINES + GROWTH, ["debug", NAME, "--history", "2"], data=data), front_of_answers, [*DEVICES_OF_RUNS]),
        (Run("an editor", framed(REQUESTS), ["adapter"], data=data), messages, [Case.writes, frames_read, Case.single_bytes]),
    ]


def of_run(may_end):
    """What is tried with a run: each allocation is refused, and it ends as it may, or as the whole run does."""

    def tried(case):
        whole, given = case.refusals()
        why = [] if whole[0] == 0 and whole[2] == b"" else [f"a whole run: {whole!r}"]
        why += [f"allocation {at}: {it!r}" for at, it in enumerate(given, 1) if it != whole and not may_end(whole, it)]
        if given.count(whole) > PIECES or given.count(whole) == len(given):
            why.append(f"it goes on without {given.count(whole)} of {len(given)} allocations")
        return case.result(f"each of {len(given)} allocations refused", why)

    return tried


def tasks(root, program, failing):
    return [it for found in (devices(root, program, failing), memory(root, program, failing)) for it in found]


def devices(root, program, failing, name=""):
    """Tasks: the devices of the runs of a name fail, or of all."""
    return [task(run, it, program, failing) for run, _, more in runs(root) if name in run.name for it in more]


def memory(root, program, failing):
    """Tasks: each allocation of runs refused."""
    return [task(run, of_run(may_end), program, failing) for run, may_end, _ in runs(root)]
