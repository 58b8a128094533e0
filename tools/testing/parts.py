"""The hostile use of the programs, in parts that are tried side by side: without memory, with devices that fail, with damaged texts, with large ones.

Each part takes a program without a sanitizer, which the library of failing.c makes fail; so it takes a C compiler.
"""

import subprocess
import tempfile

from . import damaged_lines, devices, front_ends, hostile, large, longest_fronts, phases, program, spaces
from .built import result
from .calls import side_by_side
from .tried import Result


def memory(root, built, failing):
    return hostile.memory(root, built, failing) + phases.tasks(built, failing)


def address_spaces(root, built, failing):
    return spaces.tasks(root, built, failing)


def failing_devices(root, built, failing):
    return devices.endless(built, failing) + hostile.devices(root, built, failing)


def damaged_sources(root, built, failing):
    return hostile.damage(root, built, failing)


def fronts_of_sources(root, built, failing):
    return longest_fronts.tasks(root, built)


def command_lines(root, built, failing):
    return damaged_lines.tasks(root, built, failing)


def arguments(root, built, failing):
    return [lambda run=run: [result(built, run)] for run in program.runs_of_bytes()]


def large_texts(root, built, failing):
    return large.tasks(built)


def many_lines(root, built, failing):
    return [large.of(large.many_commands, built)]


# By the program that they take; those with the longest tasks first.
PARTS = {
    program.CRATE: {
        "a million command lines": many_lines,
        "large texts": large_texts,
        "failing devices": failing_devices,
        "damaged sources": damaged_sources,
        "fronts of sources": fronts_of_sources,
        "refused memory": memory,
        "address spaces": address_spaces,
        "damaged command lines": command_lines,
        "arguments not in text": arguments,
    },
    front_ends.CRATE: {"failing front ends": front_ends.tasks},
}


def results(root, built, crate, name):
    """The results of a part that takes the program of a crate."""
    with tempfile.TemporaryDirectory(prefix="failing-") as folder:
        failing = hostile.library(folder)
        if failing is None:
            return [Result(name, False, [hostile.NO_LIBRARY])]
        tasks = PARTS[crate][name](root, built, failing)
        # A task alone waits for no other: it is the longest of all.
        given = [done(tasks[0])] if len(tasks) == 1 else side_by_side(done, tasks)
        return [it for found in given for it in found]


def done(task):
    """The results of a task; or that a run of it does not end."""
    try:
        return task()
    except subprocess.TimeoutExpired as late:
        return [Result(" ".join(map(str, late.cmd)), False, [f"it had not ended after {late.timeout:.0f} seconds"])]
