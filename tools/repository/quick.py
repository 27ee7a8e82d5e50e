"""Judges a change in minutes, without proofs: the program's checks, and the tests of the engine's crates.

Nothing is proved, and no edit is refused: `.ci/run` does both. From a copy of the repository `ztxg` is built without
proofs, or the program of `--program` is taken. Beside that the tests are built and run (`engine_checks`), and so does
`python3 tools check`. Then come the checks of the program, side by side (`program_checks`).

A line tells how each part ended, and what a failed one printed follows. The last line is `N passed, M failed`.
"""

import pathlib
import re
import sys
import tempfile

from tools import TOP
from tools.checks import program_checks
from tools.harness import unproved
from tools.harness.program import built, run
from tools.harness.side_by_side import Part, SideBySide
from tools.repository.build_program import copied

LIMIT = 1_200
NO_PROOF = "Nothing is proved here: only .ci/run proves, and tries the edits that have to be refused."


def name_kit(ztxg, top):
    """Has the README.md of a copy name the kit that the program names, so that `commands` finds no unproved program
    wrong."""
    if f"({unproved.UNPROVED})" in run([ztxg, "--version"]).text():
        readme = top / "README.md"
        readme.write_text(re.sub(r"(This is version .*? names )`.*?`", rf"\1`{unproved.UNPROVED}`", readme.read_text()))


def add_arguments(parser):
    parser.add_argument("--program", type=built, help="a built program, so that none is built")


def main(program):
    print(NO_PROOF, flush=True)
    with tempfile.TemporaryDirectory() as room, SideBySide() as side_by_side:
        path = pathlib.Path(room, unproved.PROGRAM)
        build = [sys.executable, TOP / "tools", "build_program", unproved.PROGRAM, path]
        building = None if program else side_by_side.start(Part("build", build, LIMIT))
        side_by_side.start(program_checks.tests())
        side_by_side.start(Part("check", [sys.executable, TOP / "tools", "check"], LIMIT))
        top = copied(room, "", "out").parent
        if program or building.result().is_passed:
            name_kit(program or path, top)
            program_checks.start_all(program or path, side_by_side, top)
        return side_by_side.end()
