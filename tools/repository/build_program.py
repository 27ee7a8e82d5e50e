"""Builds a program of tools/programs, or `ztxg` without proofs, in a copy of the repository.

The crates that a program of tools/programs uses have to be checked (`rt all check`), or they are proved first. The gate
doesn't prove these programs. It reads each file that ends in `.rt`, so theirs end in `.rt.txt`.

`ztxg` and `engine_checks`, the tests of the engine's crates, are built without any proof (`tools/harness/unproved.py`).
They end if a check fails that a proof would have ruled out. So built, `ztxg` does what the gate's program does, half as
fast, and its `--version` says `unproved`.
"""

import pathlib
import shutil
import subprocess
import tempfile

from tools import TOP, Failed
from tools.harness import unproved

SOURCES = TOP / "tools/programs"
TESTS = "engine_checks"
# The line of each program in crates.txt.
PROGRAMS = {
    "durable_load": "durable_load: anyhow topzerad loads rand_pcg",
    TESTS: f"{TESTS} tests_may=Threads+Wait: base device_model file_devices hash_lanes checked_blocks uberblocks"
    " records intent_log tree_blocks contents log_replay import_replay inspections word_lock pool_threads loads",
    "flush_counts": "flush_counts may_wait=9: anyhow topzerad",
    "hash_blocks": "hash_blocks: anyhow sha2",
    "idle_loops": "idle_loops: anyhow topzerad",
    "load_receipts": "load_receipts: anyhow topzerad loads",
    "lone_transactions": "lone_transactions: anyhow topzerad",
}


def copied(room, line, *left_out):
    """A copy of the repository in a folder, with one more line of crates.txt: the folder of its crates."""
    copy = pathlib.Path(room, "copy")
    shutil.copytree(TOP, copy, ignore=shutil.ignore_patterns(".git", *left_out))
    with open(copy / "crates.txt", "a") as crates:
        crates.write(f"{line}\n")
    return copy / "crates"


def with_sources(crates, name):
    """The folder of a program's crate in a copy of the repository, with its sources."""
    folder, crate = SOURCES / name / "src", crates / name
    for source in folder.rglob("*.rt.txt"):
        to = crate / "src" / source.relative_to(folder).with_suffix("")
        to.parent.mkdir(parents=True, exist_ok=True)
        shutil.copy2(source, to)
    return crate


def build_unproved(room, path):
    """Builds `ztxg` without proofs. The copy of the repository that it is built in is `copy` of the folder."""
    crates = copied(room, "", "out")
    unproved.say_unproved(crates.parent)
    unproved.build(crates / unproved.PROGRAM, pathlib.Path(path).absolute(), pathlib.Path(room))


def build_tests(room, path):
    """Builds the tests of the engine's crates without proofs, as `build_unproved` builds `ztxg`."""
    crates = copied(room, PROGRAMS[TESTS], "out")
    unproved.build(with_sources(crates, TESTS), pathlib.Path(path).absolute(), pathlib.Path(room))


def add_arguments(parser):
    names = [*PROGRAMS, unproved.PROGRAM]
    parser.add_argument("name", metavar="NAME", choices=names, help=", ".join(names))
    parser.add_argument("path", metavar="PATH", type=pathlib.Path, help="the file that the built program goes to")


def main(name, path):
    with tempfile.TemporaryDirectory() as room:
        if name == unproved.PROGRAM:
            return build_unproved(room, path)
        if name == TESTS:
            return build_tests(room, path)
        crate = with_sources(copied(room, PROGRAMS[name]), name)
        # It is run without a word, too: one that wants words says so and ends.
        ran = subprocess.run(["rt", "run"], cwd=crate, capture_output=True, text=True)
        built = crate / "out" / name
        if not built.is_file():
            raise Failed(ran.stdout + ran.stderr)
        shutil.copy2(built, path.absolute())
