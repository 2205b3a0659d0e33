#!/usr/bin/env python3
"""Prints how many checks this machine can run side by side.

That is one for each processor that this process may use, but no more than have 5 GB of free memory
each, and at least one. If the variable RT_JOBS is set to a positive number, it prints that instead.
"""

import os
import re
import sys
from pathlib import Path

# The memory that a check may take, in bytes.
MEMORY = 5_000_000_000
# A control group's limit of memory and what it holds, in the two versions of control groups.
GROUPS = [("/sys/fs/cgroup/memory.max", "/sys/fs/cgroup/memory.current"),
          ("/sys/fs/cgroup/memory/memory.limit_in_bytes",
           "/sys/fs/cgroup/memory/memory.usage_in_bytes")]
# The file with a control group's share of the processors: its time in each period.
SHARE = Path("/sys/fs/cgroup/cpu.max")


def number_in(path, pattern=r"(\d+)"):
    """The first number in a file that matches a pattern, or None."""
    try:
        found = re.search(pattern, Path(path).read_text())
    except OSError:
        return None
    return int(found[1]) if found else None


def free_memory():
    """How many bytes of memory are free on the machine and in this process's control group."""
    free = [1024 * (number_in("/proc/meminfo", r"MemAvailable:\s+(\d+)") or 0)]
    for limit, held in GROUPS:
        limit, held = number_in(limit), number_in(held)
        if limit is not None and held is not None:
            free.append(limit - held)
    return min(free)


def processors():
    """How many processors this process may use."""
    found = len(os.sched_getaffinity(0))
    time, period = number_in(SHARE, r"^(\d+)"), number_in(SHARE, r" (\d+)")
    return min(found, max(time // period, 1)) if time and period else found


def side_by_side():
    """How many checks this machine can run side by side."""
    wanted = os.environ.get("RT_JOBS", "")
    if wanted.isdigit() and int(wanted) > 0:
        return int(wanted)
    return max(min(processors(), free_memory() // MEMORY), 1)


def main():
    """Prints the number."""
    print(side_by_side())


if __name__ == "__main__":
    sys.exit(main())
