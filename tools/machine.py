"""What this machine has to spare, for the tools that run several things at once: processors and memory. As a command it says by its exit status
whether tests have room beside a gate: 0 where they have, else 1.
"""
import os
import re
import sys

# What a check takes of memory, in GiB (the largest has taken 3.4), and what a build of a program without a proof takes.
OF_A_CHECK, OF_A_BUILD = 4, 3


def processors():
    return len(os.sched_getaffinity(0))


def free_memory():
    """The memory that may be had, in GiB."""
    with open("/proc/meminfo", encoding="ascii") as file:
        return int(re.search(r"^MemAvailable:\s+(\d+)", file.read(), re.M)[1]) / 2**20


def lanes(of_each=OF_A_CHECK, beside=0):
    """How many works run side by side that take so much memory each, while so much is taken by what else runs."""
    return max(1, min(processors(), int((free_memory() - beside) / of_each)))


def has_room_beside():
    """Whether tests run beside the checks of a gate and take no lane from them: from three processors on the longest chain of crates alone counts."""
    return processors() >= 3 and lanes(beside=OF_A_BUILD) >= 3


if __name__ == "__main__":
    sys.exit(0 if has_room_beside() else 1)
