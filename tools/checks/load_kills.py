"""Kills loads at chance moments, and compares what their pools hold with what was acknowledged.

Each time LOAD_RECEIPTS makes a pool in a new file and loads it by four threads. It prints a line for each eighth write
of a stream once it is durable. At a chance moment it is killed (`kill -9`). Then

1. `ztxg show` has to mount the file.
2. `ztxg script --file` imports and reads it. Of each stream the pool has to hold the first k writes and no other,
   with k at least the number that was printed, and at most 8 more: those that the stream makes before it waits again.
3. `ztxg load` is started on the same file and killed too, and `ztxg show` has to mount the file again.

It prints how many writes were acknowledged, and how many more were found. A kill of the process loses nothing that the
system has taken, written or flushed: only a power failure does. So this tests the program and the import after it, and
not the order of its flushes, which tests and proofs on a device in memory have (`docs/PROVED.md`).
"""

import random
import subprocess
import time

from tools import Failed
from tools.harness.loaded_files import acknowledged_in, more_than, read, shown
from tools.harness.pool_files import pool_file
from tools.harness.program import add_program

WORKERS, WRITES = 4, 1_000_000
# Seconds from the first transaction to the kill.
LONGEST = 1.0


def killed_load(receipts, file, seed, chance):
    """Starts a load and kills it: how many writes of each stream it has acknowledged."""
    words = [receipts, file, str(WORKERS), str(WRITES), str(seed)]
    process = subprocess.Popen(words, stdout=subprocess.PIPE, text=True)
    if process.stdout.readline() != "created\n":
        raise Failed(f"no pool was made: status {process.wait()}")
    time.sleep(chance.uniform(0, LONGEST))
    process.kill()
    lines = process.stdout.readlines()
    process.wait()
    strange = [line for line in lines if not line.startswith("durable ")]
    if strange:
        raise Failed(f"it printed {strange[0]}")
    return acknowledged_in(lines)


def kill_again(ztxg, file, seed, chance):
    words = [ztxg, "load", file, "--workers", str(WORKERS), "--ops", str(WRITES), "--seed", str(seed)]
    process = subprocess.Popen(words, stdout=subprocess.PIPE, stderr=subprocess.PIPE, text=True)
    time.sleep(chance.uniform(0, LONGEST))
    process.kill()
    out, errors = process.communicate()
    if out or errors:
        raise Failed(f"the second load printed {out}{errors}")


def add_arguments(parser):
    add_program(parser)
    add_program(parser, "load_receipts")
    parser.add_argument("count", metavar="COUNT", type=int, nargs="?", default=100, help="how many loads (100)")
    parser.add_argument("seed", metavar="SEED", type=int, nargs="?", default=5, help="of the first load (5)")


def main(ztxg, load_receipts, count, seed):
    total, more = 0, 0
    for one in range(seed, seed + count):
        chance = random.Random(one)
        with pool_file() as file:
            acknowledged = killed_load(load_receipts, file, one, chance)
            total += sum(acknowledged)
            more += more_than(read(ztxg, file, shown(ztxg, file)), one, acknowledged)
            kill_again(ztxg, file, one, chance)
            shown(ztxg, file)
    print(f"{count} kills: {total} acknowledged writes, all there; {more} more were there, none out of turn")
