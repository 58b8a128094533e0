"""How many processors this process may use."""

import math
import os
import pathlib


def quota():
    """How many processors the control group leaves, or None."""
    try:
        line = next(it for it in pathlib.Path("/proc/self/cgroup").read_text().splitlines() if it.startswith("0::"))
        folder = pathlib.Path("/sys/fs/cgroup", line[3:].lstrip("/"))
    except (OSError, StopIteration):
        return quota_of_version_1()
    least = None
    for place in (folder, *folder.parents):
        try:
            most, period = (place / "cpu.max").read_text().split()
        except (OSError, ValueError):
            continue
        if most != "max":
            here = int(most) / int(period)
            least = here if least is None else min(least, here)
    return least if least is not None else quota_of_version_1()


def quota_of_version_1():
    folder = pathlib.Path("/sys/fs/cgroup/cpu")
    try:
        most = int((folder / "cpu.cfs_quota_us").read_text())
        period = int((folder / "cpu.cfs_period_us").read_text())
    except (OSError, ValueError):
        return None
    return most / period if most > 0 and period > 0 else None


def processors():
    count = len(os.sched_getaffinity(0))
    allowed = quota()
    return max(1, count if allowed is None else min(count, math.ceil(allowed)))
