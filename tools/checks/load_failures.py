"""Refuses one call of the device of a load, and compares what its pool holds with what was acknowledged.

`cc` compiles a `pwrite64`, a `pread64` and an `fsync` that refuse one call of a run with `EIO`
(`tools/harness/shims/refusals.c`). For a write, a flush and a read, and for so many places each, spread over the calls
that an undisturbed load makes:

1. `ztxg load` on a new pool has to end with status 1 and the refusal of that call: `ztxg: refused 3 Write`, `4 Flush`
   or `2 Read`. `ztxg show` has to mount the file then. A read comes before the first write, when the pool is
   imported.
2. LOAD_RECEIPTS makes and loads a pool of its own, with a write or a flush refused after the pool was made. It has to
   end with status 1. The pool has to hold each write that was acknowledged, as in `load_kills`.

It prints a line for each kind of call, with how many writes were acknowledged, and how many more were found.
"""

import pathlib

from tools import Failed
from tools.harness import shims
from tools.harness.loaded_files import acknowledged_in, more_than, read, shown
from tools.harness.pool_files import create, pool_file
from tools.harness.program import add_program, run
from tools.model.serial_pool import REFUSALS

WORKERS, WRITES, SEED = 4, 2_000, 5
# In the order of the shim's counts.
KINDS = ["write", "flush", "read"]
SECONDS = 600


class Device:
    """Programs whose device may refuse a call."""

    def __init__(self, ztxg, receipts, file, shim, counts):
        self.ztxg, self.receipts, self.file, self.shim, self.counts = ztxg, receipts, file, shim, counts

    def run(self, words, kind, at):
        """A run in which this call of a kind is refused, and how many of each kind it made."""
        self.counts.clear()
        names = {"FAIL_KIND": kind, "FAIL_AT": str(at), "COUNT_FILE": self.counts.path}
        return run(words, seconds=SECONDS, env=self.shim.environment(**names)), self.counts.read()

    def load(self, kind="", at=0):
        """A load on a new pool."""
        pathlib.Path(self.file).unlink(missing_ok=True)
        create(self.ztxg, self.file)
        words = ["-q", "load", self.file, "--workers", str(WORKERS), "--ops", str(WRITES), "--seed", str(SEED)]
        return self.run([self.ztxg, *words], kind, at)

    def receipts_of(self, writes, kind="", at=0):
        """A load that makes its pool, and prints what is durable."""
        pathlib.Path(self.file).unlink(missing_ok=True)
        return self.run([self.receipts, self.file, str(WORKERS), str(writes), str(SEED)], kind, at)

    def check_loads(self, kind, places):
        """How many loads ended as they have to."""
        ran, counts = self.load()
        if ran.status != 0 or not counts[kind]:
            raise Failed(f"the undisturbed load: {ran}, {counts}")
        # Another run may make fewer writes and flushes, since they depend on the threads.
        tried = spread(1, counts[kind] if kind == "read" else counts[kind] // 2, places)
        for at in tried:
            ran, _ = self.load(kind, at)
            if (ran.status, ran.text(), ran.error_text()) != (1, "", f"ztxg: {REFUSALS[kind]}\n"):
                raise Failed(f"{kind} {at} of a load: status {ran.status}, {ran.text()}{ran.error_text()}")
            shown(self.ztxg, self.file)
        return len(tried)

    def check_receipts(self, kind, places):
        """How many loads with receipts ended so, how many writes were acknowledged, and how many more were there."""
        _, made = self.receipts_of(0)
        _, all_calls = self.receipts_of(WRITES)
        total, more, tried = 0, 0, spread(made[kind] + 1, (made[kind] + all_calls[kind]) // 2, places)
        for at in tried:
            ran, _ = self.receipts_of(WRITES, kind, at)
            if ran.status != 1:
                raise Failed(f"{kind} {at} of receipts: status {ran.status}, {ran.error_text()}")
            acknowledged = acknowledged_in(ran.lines())
            total += sum(acknowledged)
            more += more_than(read(self.ztxg, self.file, shown(self.ztxg, self.file)), SEED, acknowledged)
        return len(tried), total, more


def spread(first, last, count):
    """So many places from the first to the last one."""
    return sorted({first + (last - first) * i // max(count - 1, 1) for i in range(count)})


def add_arguments(parser):
    add_program(parser)
    add_program(parser, "load_receipts")
    parser.add_argument("places", metavar="PLACES", type=int, nargs="?", default=10, help="calls of each kind (10)")


def main(ztxg, load_receipts, places):
    with shims.compiled("refusals") as shim, shims.shared_counts(*KINDS) as counts, pool_file() as file:
        device = Device(ztxg, load_receipts, file, shim, counts)
        for kind in KINDS:
            print(f"{kind}: {device.check_loads(kind, places)} loads ended as they have to, and their files mount")
            if kind != "read":
                count, total, more = device.check_receipts(kind, places)
                print(f"{kind}: {count} loads with receipts: {total} acknowledged writes, all there; {more} more")
