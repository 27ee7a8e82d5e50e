"""Runs the scripts of all rows with 1, 2 and 256 tree blocks in memory, and compares the answers.

An `import DIRTYMAX` becomes `import DIRTYMAX 1`, and so on. What a script prints and its status have to be those of the
undisturbed script, which `tools/rows/made` has. Left out are scripts without such a line, and those that count reads:
they have a `fail read`, or an import with a number of blocks of its own.

Each difference is printed, and then the status is 1.
"""

import re

from tools import Failed
from tools.harness.program import add_program, run
from tools.repository.make_rows import MADE

COUNTS = [1, 2, 256]
IMPORT = re.compile(rb"import [0-9]+")
COUNTS_READS = re.compile(rb"fail +read\b|import +\S+ +\S")
SECONDS = 600


def lines_of(content):
    """The lines of a text, whose last one may have no newline."""
    lines = content.split(b"\n")
    return lines if lines[-1] else lines[:-1]


def parts(name):
    """The lines of a file by scripts, each after its line `== SIZE MOMENT TITLE`."""
    found = []
    for line in lines_of((MADE / name).read_bytes()):
        if line.startswith(b"== ") and not line.startswith(b"== status "):
            found.append([])
        found[-1].append(line)
    return found


def with_blocks(script, count):
    """A script whose imports have so many blocks."""
    return [b"%s %d" % (line, count) if IMPORT.fullmatch(line) else line for line in script]


def difference(ztxg, script, wanted, file=None):
    """What a script prints otherwise, or None, on a device in memory or on a file. Its first line is the one before it."""
    size, moment = script[0].split(b" ", 3)[1:3]
    device = ["--file", file] if file else [size]
    ran = run([ztxg, "script", *device, "-", "--moment", moment], script[1:], SECONDS)
    found = [script[0], *lines_of(ran.out), f"== status {ran.status}".encode()]
    for at, both in enumerate(zip(wanted, found)):
        if both[0] != both[1]:
            return f"answer {at}: wanted {both[0]!r}, found {both[1]!r}"
    return None if len(wanted) == len(found) else f"{len(found) - 2} answers in place of {len(wanted) - 2}"


def add_arguments(parser):
    add_program(parser)


def main(ztxg):
    scripts, answers = parts("scripts"), parts("answers")
    if len(scripts) != len(answers):
        raise Failed(f"{len(scripts)} scripts have {len(answers)} answers", status=2)
    rows = list(zip(scripts, answers))
    counting = [row for row in rows if any(map(COUNTS_READS.match, row[0]))]
    picked = [row for row in rows if row not in counting and any(map(IMPORT.fullmatch, row[0]))]
    wrong = 0
    for count in COUNTS:
        for script, wanted in picked:
            differs = difference(ztxg, with_blocks(script, count), wanted)
            if differs:
                wrong += 1
                print(f"{script[0].decode(errors='replace')}, with {count} blocks: {differs}", flush=True)
    others = len(rows) - len(picked) - len(counting)
    print(f"{len(rows)} scripts: {len(counting)} count reads, {others} have no such import")
    print(f"{len(picked)} with {', '.join(map(str, COUNTS))} blocks: {wrong} differ")
    return int(wrong > 0)
