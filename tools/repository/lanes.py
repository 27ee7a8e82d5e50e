"""Prints how many proofs may run side by side: for `RT_JOBS`, a variable of the kit.

It is the smaller of the processors that this process may use and a fifth of the free gigabytes, and at least 1. Control
groups may leave fewer of both. A proof takes five gigabytes at most. Without that variable `rt ci` guesses the memory
of each proof three to four times too high, and then leaves processors idle.
"""

import pathlib

from tools.harness.side_by_side import processors

GROUPS = pathlib.Path("/sys/fs/cgroup")
EACH = 5 * 10**9


def words_of(path):
    """The words of a file of the kernel, none if there is no such file."""
    try:
        return path.read_text().split()
    except OSError:
        return []


def number_after(name, words):
    """The number after a name in such a file."""
    return int(words[words.index(name) + 1])


def free_memory(said, groups):
    """The bytes that are free, as the kernel says of the machine and of the control group."""
    free = number_after("MemAvailable:", said.split()) * 1024
    limit, held = words_of(groups / "memory.max"), words_of(groups / "memory.stat")
    return min(free, int(limit[0]) - number_after("anon", held)) if limit not in ([], ["max"]) else free


def processors_of_group(groups):
    """How many processors the control group leaves, if it has a limit."""
    quota = words_of(groups / "cpu.max")
    return [int(quota[0]) // int(quota[1])] if quota and quota[0] != "max" else []


def lanes(count, said, groups):
    """How many proofs may run on so many processors, by what the kernel says."""
    return max(1, min([count, free_memory(said, groups) // EACH, *processors_of_group(groups)]))


def main():
    print(lanes(processors(), pathlib.Path("/proc/meminfo").read_text(), GROUPS))
