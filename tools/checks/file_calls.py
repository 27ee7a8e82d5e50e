"""Notes the program's calls on a pool's file, and judges their order.

`cc` compiles a `pwrite64`, an `fsync`, an `fdatasync` and an `ftruncate64` that note each call
(`tools/harness/shims/calls.c`).

- A create syncs its file's folder, sizes the file, clears it, syncs it, writes four configs, syncs, writes four
  uberblocks and syncs. No other command syncs a folder.
- A sync of a group with one object writes its blocks, rising, syncs, writes the uberblocks of labels 0 to 3 and syncs.
  A log write writes one block, and a log flush syncs.
- Each sync is an `fsync`: an `fdatasync` may leave the file's size behind. A load makes no other call either.
- `show` and `check` make none of these calls.

Each difference is printed, and then the status is 1.
"""

import pathlib

from tools.harness import shims
from tools.harness.judge import Judge
from tools.harness.pool_files import SIZE, pool_file
from tools.harness.program import add_program, run
from tools.model import layout
from tools.model.layout import AREA, BLOCK, CONFIG_AT, SLOT, label_places, slot_places

SECONDS = 300
FSYNC, FOLDER = ("fsync", 0, 0), ("folder", 0, 0)
SCRIPT = [
    "import 1048576",
    f"lock 1 1 w 0 {layout.MAX_LENGTH}",
    "begin 1 c:1 w:1:0:4",
    "commit 0 abcd",
    "log-write",
    "log-flush",
    "sync",
]


def configs():
    return [("write", label + CONFIG_AT, BLOCK) for label in label_places(SIZE)]


def uberblocks(group):
    return [("write", place, SLOT) for place in slot_places(SIZE, group)]


class Calls(Judge):
    """The calls of runs, which `noted` has, a line each."""

    def __init__(self, ztxg, shim, noted):
        super().__init__("file_calls")
        self.ztxg, self.shim, self.noted = ztxg, shim, pathlib.Path(noted)

    def of(self, words, script=()):
        """The calls of a run, each with its name, its place and its size."""
        self.noted.write_text("")
        environment = self.shim.environment(CALLS_FILE=str(self.noted))
        ran = run([self.ztxg, *words], script, SECONDS, env=environment)
        if ran.status != 0:
            self.differ(words, "ends with", ran.status, ran.error_text())
        calls = shims.noted_calls(self.noted)
        known = {"write", "fsync", "size", "folder"} if words[0] == "create" else {"write", "fsync", "size"}
        if strange := {name for name, _, _ in calls} - known:
            self.differ(words, "makes", strange)
        return calls

    def judge(self, what, found, wanted):
        if found != wanted:
            self.differ(what, "makes", found, "and not", wanted)

    def judge_all(self, pool):
        made = self.of(["create", pool, "tank", "77", str(SIZE)])
        self.judge("the front of a create", made[:2], [FOLDER, ("size", 0, SIZE)])
        self.judge("the end of a create", made[-11:], [FSYNC, *configs(), FSYNC, *uberblocks(4), FSYNC])
        self.judge("what a create makes before", {name for name, _, _ in made[2:-11]}, {"write"})
        # The import takes the first block for the log, and the next log block is the second one.
        blocks = [("write", AREA + BLOCK * number, BLOCK) for number in (2, 3, 4, 5)]
        log = [("write", AREA, BLOCK), FSYNC]
        calls = self.of(["script", "--file", pool, "-"], SCRIPT)
        wanted = [*log, *blocks, FSYNC, *uberblocks(9), FSYNC]
        self.judge("a log write, a log flush and a sync", calls[-12:], wanted)
        self.of(["load", pool, "--workers", "2", "--ops", "8", "--seed", "5"])
        before = pathlib.Path(pool).read_bytes()
        for name in ("show", "check"):
            self.judge(name, self.of([name, pool]), [])
        if pathlib.Path(pool).read_bytes() != before:
            self.differ("a file that is only read changes")


def add_arguments(parser):
    add_program(parser)


def main(ztxg):
    with shims.compiled("calls") as shim, pool_file() as pool:
        calls = Calls(ztxg, shim, f"{pool}.calls")
        calls.judge_all(pool)
    print(f"{calls.differences} differences")
    return int(calls.differences > 0)
