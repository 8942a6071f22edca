"""Computes how many checks a machine can run at a time."""

import os
import re

# The most memory that a check of a crate takes, in bytes.
MEMORY = 5_000_000_000
# The files that contain a control group's memory limit and its present use, in both versions of control groups.
GROUPS = [
    ("/sys/fs/cgroup/memory.max", "/sys/fs/cgroup/memory.stat", r"anon (\d+)"),
    ("/sys/fs/cgroup/memory/memory.limit_in_bytes", "/sys/fs/cgroup/memory/memory.stat", r"total_rss (\d+)"),
]


def number_in(path: str, pattern: str) -> int | None:
    """Returns the number that the pattern finds in a file, or None."""
    try:
        with open(path, encoding="utf-8") as file:
            found = re.search(pattern, file.read(), re.M)
    except OSError:
        return None
    return int(found[1]) if found else None


def free() -> int | None:
    """Returns the free memory in bytes, or None if the system does not report it."""
    kilobytes = number_in("/proc/meminfo", r"^MemAvailable:\s+(\d+)")
    if kilobytes is None:
        return None
    found = [1024 * kilobytes]
    for most, used, pattern in GROUPS:
        most, used = number_in(most, r"^(\d+)"), number_in(used, pattern)
        if most is not None and used is not None:
            found.append(most - used)
    return min(found)


def checks() -> int | None:
    """Returns the number of processors, or fewer if memory is short, but at least one; None if the free memory is not
    known."""
    memory = free()
    if memory is None:
        return None
    return max(1, min(len(os.sched_getaffinity(0)), memory // MEMORY))
