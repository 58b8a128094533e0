"""The time of commands: that of a run less that of the same run without them, each the least of some rounds.

It is the processor's, so that others who use the machine count little.
"""

import resource
import subprocess
import tempfile

ROUNDS = 3
LEAST = 0.1  # seconds that commands have to take, and this share of the run without them
REPEATS = (1, 4, 16, 64, 256)


class NotRun(Exception):
    """The program did not end as it should."""


def ended(before, program, work, times):
    """A run of a work that has ended, with the measured commands done so often: the words stand before the program's own."""
    commands = "".join(f"{line}\n" for line in work.first + work.measured * times).encode()
    with tempfile.NamedTemporaryFile("w", suffix=".ispc") as source:
        source.write(work.text)
        source.flush()
        words = [*before, program, source.name, "--history", str(work.history), "--width", str(work.width)]
        return subprocess.run(words, input=commands, stdout=subprocess.DEVNULL, stderr=subprocess.PIPE)


def spent():
    """The processor's seconds of the programs that have ended."""
    used = resource.getrusage(resource.RUSAGE_CHILDREN)
    return used.ru_utime + used.ru_stime


def once(program, work, times):
    """The seconds of one run of a work."""
    before = spent()
    run = ended([], program, work, times)
    taken = spent() - before
    if run.returncode:
        raise NotRun(f"status {run.returncode} {run.stderr.decode(errors='replace').strip()}")
    return taken


def enough(program, work):
    """How often the measured commands are done for a time that can be told from chance, or None."""
    for times in REPEATS:
        before = once(program, work, 0)
        if once(program, work, times) - before >= LEAST * max(1, before):
            return times
    return None


def rates(program, works):
    """How many things each work does in a second; None where that is too short to tell. The rounds of the works alternate."""
    often = [enough(program, work) for work in works]
    with_them, without = [[] for _ in works], [[] for _ in works]
    for _ in range(ROUNDS):
        for number, (work, times) in enumerate(zip(works, often)):
            if times is not None:
                without[number].append(once(program, work, 0))
                with_them[number].append(once(program, work, times))
    found = []
    for work, times, more, less in zip(works, often, with_them, without):
        taken = min(more) - min(less) if times else 0
        found.append(work.count * times / taken if taken > 0 else None)
    return found


def tried(program, works):
    """The rates, or why there are none."""
    try:
        return rates(program, works), ""
    except NotRun as why:
        return None, str(why)
