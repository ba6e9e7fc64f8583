#!/usr/bin/env python3
"""Prints how many checks `rt ci` may run side by side: RT_JOBS. Left to itself it reserves three times the memory that
a check of `wtf8` uses, and leaves processors idle."""
import doctest
import os
import pathlib
import re
import sys

# Half of what the two greatest checks, the tests of `unit_text` and `compare_scripts`, take together: 7.2 GB.
MEMORY_A_JOB = 3_600_000_000


def jobs(processors, memory):
    """One a processor, where each has its memory in bytes and so has a check of wrong bodies beside them; at least one.

    >>> jobs(4, 23 * 10**9), jobs(4, 12 * 10**9), jobs(2, 8 * 10**9), jobs(1, 64 * 10**9), jobs(4, 2 * 10**9)
    (4, 2, 1, 1, 1)
    """
    return max(1, min(processors, memory // MEMORY_A_JOB - 1))


def available(meminfo, group_limit):
    """The memory in bytes that is free by /proc/meminfo, or the limit of the control group, if that is less.

    >>> available("MemTotal: 9000000 kB\\nMemAvailable:    8000000 kB\\n", "max\\n")
    8192000000
    >>> available("MemAvailable: 24000000 kB\\n", "8000000000\\n")
    8000000000
    """
    free = 1024 * int(re.search(r"^MemAvailable: *(\d+)", meminfo, re.M)[1])
    return min(free, int(group_limit)) if group_limit.strip().isdigit() else free


def text_of(file):
    path = pathlib.Path(file)
    return path.read_text(encoding="utf-8") if path.is_file() else ""


if __name__ == "__main__":
    if doctest.testmod().failed:
        sys.exit(1)
    memory = available(text_of("/proc/meminfo"), text_of("/sys/fs/cgroup/memory.max"))
    print(jobs(len(os.sched_getaffinity(0)), memory))
