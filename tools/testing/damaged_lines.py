"""Command lines that are damaged: each front of a line, and the line with each byte replaced by 0, 255, `(` and `}`.

They are the lines of the session with an answer of each kind. The damaged ones come at the place of the whole one, all in one run, and are answered
as tools/meaning answers them.
"""

from . import hostile, kinds
from .meant import Debugger, asked
from .tried import Run


def damaged(line):
    """The line with each byte replaced, and its fronts, the longest first: one of these may be `q`."""
    changed = [line[:at] + bytes([byte]) + line[at + 1 :] for at in range(len(line)) for byte in hostile.DAMAGE]
    return changed + [line[:at] for at in reversed(range(len(line)))]


def meant(session, lines):
    """What is answered to these lines. A byte of 255 is for tools/meaning, as one of 0, a sign that no command has."""
    source, _, options = asked(session.run())
    text = [it.replace(b"\xff", b"\0").decode() for it in lines]
    return "".join(f"{line}\n" for answer in Debugger(source, **options).answers(text) for line in answer).encode()


def tasks(root, program, failing):
    """For each line its damaged ones, behind the lines that stand before it in the session."""
    session = kinds.session(root)
    lines = session.commands.splitlines()

    def of_line(number):
        def tried(case):
            came, wanted = case.ended(), (0, meant(session, case.commands.splitlines()), b"")
            return case.result(f"{len(damaged(lines[number]))} damaged lines", [] if came == wanted else [f"{came!r}, and not {wanted!r}"])

        given = b"".join(it + b"\n" for it in [*lines[:number], *damaged(lines[number])])
        words, data = session.run().arguments, session.run().data
        return hostile.task(Run(lines[number].decode(), given, words, data=data), tried, program, failing)

    return [of_line(lines.index(it)) for it in dict.fromkeys(lines)]
