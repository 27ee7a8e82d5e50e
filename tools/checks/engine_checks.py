"""Runs the tests of the engine's crates, each in a process and a folder of its own, side by side.

They are the program `tools/programs/engine_checks`. If no PROGRAM is given, it is built without proofs, as by
`python3 tools build_program engine_checks PATH`: two minutes on one processor. All tests take seconds, and one that has
no end after 120 fails. A WORD picks those whose names have it.

A line tells how each test ended. What a failed one said follows: the assertion with its line, or SIGILL if a check that
the build has in place of a proof failed. The last line is `N passed, M failed`.
"""

import pathlib
import tempfile

from tools import Failed
from tools.harness.program import built, run
from tools.harness.side_by_side import Part, SideBySide
from tools.repository.build_program import TESTS, build_tests

# Four threads that write beside syncs take two seconds, any other test less than one.
LIMIT = 120
# How a test is listed that is run and has to end well. Of other kinds there is none.
LISTED = ": test"


def names_of(lines):
    """The names of the tests that a program lists. Its last line says how many there are."""
    listed, last = lines[:-1], "".join(lines[-1:])
    names = [line[: -len(LISTED)] for line in listed if line.endswith(LISTED)]
    if not names or len(names) != len(listed) or last != f"tests: {len(names)}":
        raise Failed("\n".join([f"{TESTS} --list isn't a list of tests:", *lines]), status=2)
    return names


def parts(program, room, word=""):
    """The tests of a program whose names have a word, each with a folder of its own in this one."""
    names = [name for name in names_of(run([program, "--list"], seconds=LIMIT).lines()) if word in name]
    if not names:
        raise Failed(f"no test has {word} in its name", status=2)
    for name in names:
        yield Part(name, [program, name], LIMIT, tempfile.mkdtemp(dir=room))


def add_arguments(parser):
    parser.add_argument("program", metavar="PROGRAM", type=built, nargs="?", help=f"a built {TESTS} (it is built)")
    parser.add_argument("word", metavar="WORD", nargs="?", default="", help="of the tests that are run (all)")


def main(program, word):
    with tempfile.TemporaryDirectory() as room, SideBySide() as side_by_side:
        if not program:
            program = pathlib.Path(room, TESTS)
            build_tests(room, program)
        for part in parts(program, side_by_side.room, word):
            side_by_side.start(part)
        return side_by_side.end()
