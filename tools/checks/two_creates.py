"""Makes a pool in one file by two processes at once, many times, and counts how they end.

Each time two creates start on one new file with different names. Exactly one has to print that it made its pool, with
status 0. The other has to end with status 3 and `ztxg: cannot use FILE`. The file then has to show the pool of the
first, whole. A run in which one create ended before the other began says nothing of the lock: it is made again, and
counted. Fails if anything else happens.
"""

import os
import subprocess

from tools import Failed
from tools.harness.pool_files import pool_file
from tools.harness.program import add_program, run
from tools.model.layout import MIB

NAMES = ("tank", "pond")


def start(ztxg, file, name, size):
    words = [ztxg, "-q", "create", file, name, "77", str(size)]
    return subprocess.Popen(words, stdout=subprocess.PIPE, stderr=subprocess.PIPE, text=True)


def race(ztxg, file, size):
    """How two creates of a file end: the name that won, or None if both made their pool."""
    both = [start(ztxg, file, name, size) for name in NAMES]
    ends = [(process.communicate(), process.returncode) for process in both]
    made = [
        name for name, ((out, _), status) in zip(NAMES, ends) if status == 0 and out.startswith(f"created {name} ")
    ]
    refused = [end for end in ends if end == (("", f"ztxg: cannot use {file}\n"), 3)]
    if len(made) == 2:
        return None
    if len(made) != 1 or len(refused) != 1:
        raise Failed(f"two creates ended otherwise: {ends}")
    return made[0]


def add_arguments(parser):
    add_program(parser)
    parser.add_argument("times", metavar="TIMES", type=int, nargs="?", default=100, help="how often (100)")
    parser.add_argument("size", metavar="SIZE", type=int, nargs="?", default=64 * MIB, help="of the pool (67108864)")


def main(ztxg, times, size):
    won, apart = dict.fromkeys(NAMES, 0), 0
    with pool_file() as file:
        while sum(won.values()) < times:
            name = race(ztxg, file, size)
            shown = run([ztxg, "show", file])
            lines = shown.lines()
            fronts = [[f"name {one}"] for one in ([name] if name else NAMES)]
            if shown.status != 0 or lines[:1] not in fronts or lines[-1:] != ["objects 0"]:
                raise Failed(f"the file shows no whole pool of {name}: {shown.text()}{shown.error_text()}")
            if name:
                won[name] += 1
            else:
                apart += 1
                if apart > times:
                    reason = "there is no lock, or they are over too soon (a larger SIZE)"
                    raise Failed(f"both made a pool each time: {reason}")
            os.remove(file)
    names = ", ".join(f"{name} {count}" for name, count in won.items())
    print(f"{times} times: one made, one refused ({names}); {apart} times one after the other")
