"""Runs all checks of a built program side by side.

They are those of `checks` that need the program alone, the scripts of all rows, the tests of the clients, and the
programs of README.md and of `examples`. The tests of the engine's crates (`engine_checks`) need no program: they are
built first, beside the other checks. On four idle processors all take less than eight minutes. One that has no end
after fifteen fails. A check is skipped by name if a command that it needs isn't installed; so is each client. A WORD
picks the checks whose names have it.

- `crashes` and `frames` have a minute each. The seed of `crashes` is the day, which its name tells: the same words make
  the same scripts again.
- `hostile` judges 2,000 images.
- `stops` and `lacking_memory` would take hours on all scripts. Here they get a few that touch each part of a pool and
  take 5 to 20 processor seconds each: answers, a sync, the log, a long record and a name. `stops` also stops a create
  over a pool, in a minute. Of the imports after a stop each hundredth is stopped too: all would take ten times as long.

A line tells how each check ended, and after how many seconds. What a failed one printed follows. The last line is
`N passed, M failed`.
"""

import datetime
import shlex
import shutil
import sys
from typing import List, NamedTuple

from tools import TOP
from tools.harness.program import add_program, run
from tools.harness.side_by_side import Part, SideBySide
from tools.repository.build_program import TESTS

LIMIT = 900
# The programs of README.md and of `examples`, which `rt try` compiles: minutes on one processor.
EXAMPLES = "readme_program"
# The tests of `clients/check`. Those of the disk take longest, if nbdkit is installed.
CLIENTS = [["nbdkit"], ["c", "c_with_sanitizers", "python", "rust"], ["hub"], ["hub_with_sanitizers"]]
CLIENTS += [["sqlite"], ["sqlite_with_sanitizers"]]
# Words of the scripts that are stopped, and of those whose requests for memory fail.
STOPPED = [
    "a create over a pool",
    "answers.rows",
    "a commit is durable after the flush of its log block",
    "one transaction is synced, and read after a crash",
    "four blocks are synced in ten steps",
    "records of a log that was flushed",
]
LACKING = [
    "answers.rows",
    "records of a log that was flushed",
    "each step of a sync is a device call",
    "the last part of a record",
    "a name and an object",
]
# Each so many imports after a stop are stopped too.
SHARE = "100"


class Check(NamedTuple):
    """A tool with the words behind the program's, and the commands that it needs."""

    tool: str
    words: List[str] = []
    needs: List[str] = []


def seed_of_day():
    return datetime.datetime.now(datetime.timezone.utc).strftime("%Y%m%d")


def all_checks():
    """The checks, the longest first."""
    cc = ["cc"]
    return [
        Check("copied_pools"),
        Check("caches"),
        Check("old_pools", needs=cc),
        Check("hostile", ["0:1000"]),
        Check("hostile", ["1000:2000"]),
        Check("crashes", ["60", seed_of_day()]),
        Check("frames", ["60"]),
        Check("script_rows"),
        *(Check("stops", [word, "1", SHARE]) for word in STOPPED),
        *(Check("lacking_memory", [word], cc) for word in LACKING),
        Check("hostile_rows"),
        Check("power_failures", needs=cc),
        Check("commands"),
        Check("named_objects"),
        Check("path_reads", needs=cc),
        Check("installs", needs=[*cc, "make", "pkg-config"]),
        Check("block_devices", needs=["cc", "losetup"]),
        Check("two_creates", ["20"]),
        Check("progress", needs=cc),
        Check("frame_rows"),
        Check("refused_calls", needs=cc),
        Check("file_calls", needs=cc),
    ]


def tests(top=TOP):
    """The command that builds and runs the tests of the engine's crates."""
    return Part(TESTS, [sys.executable, top / "tools", TESTS], LIMIT, top)


def parts(ztxg, top, word=""):
    """The commands of all checks whose names have a word, which are made by the tools in this folder."""
    if word in EXAMPLES:
        yield Part(EXAMPLES, [sys.executable, top / "tools", EXAMPLES, "try"], LIMIT, top)
    for tests in CLIENTS:
        name = f"clients: {', '.join(tests)}"
        if word in name:
            yield Part(name, [sys.executable, top / "clients/check", ztxg, *tests], LIMIT, top)
    for check in all_checks():
        name = shlex.join([check.tool, *check.words])
        missing = [command for command in check.needs if not shutil.which(command)]
        if word in name and missing:
            print(f"skipped {name}: {' '.join(missing)} not installed", flush=True)
        elif word in name:
            yield Part(name, [sys.executable, top / "tools", check.tool, ztxg, *check.words], LIMIT, top)


def start_all(ztxg, side_by_side, top=TOP, word=""):
    """Starts all checks of a program whose names have a word. The tests of crates are none of them."""
    print(f"the checks of {run([ztxg, '--version']).text().strip()}", flush=True)
    for part in parts(ztxg, top, word):
        side_by_side.start(part)


def add_arguments(parser):
    add_program(parser)
    parser.add_argument("word", metavar="WORD", nargs="?", default="", help="of the checks that are run (all)")


def main(ztxg, word):
    with SideBySide() as side_by_side:
        if word in TESTS:
            side_by_side.start(tests())
        start_all(ztxg, side_by_side, word=word)
        return side_by_side.end()
