"""Runs the scripts of all rows by the program, and compares all answers.

`tools/rows/made` has the scripts with their answers; `make_rows` writes both from the rows. A WORD picks the scripts
whose titles have it.

Each runs on a device in memory, whose pool is under a lock. Some run on a new file too, on a session that steps its
pool itself: those that first make a pool of at most 2 GiB, and have no `crash` and no `fail`, which a file doesn't know.

Each script that differs is printed with its first difference, and then the status is 1.
"""

import multiprocessing
import os
import re
import tempfile

from tools import Failed
from tools.checks.caches import difference, parts
from tools.harness.program import add_program

IN_MEMORY_ALONE = re.compile(rb" *(crash|fail)\b")
LARGEST_FILE = 1 << 31


def size_of(script):
    return int(script[0].split(b" ", 2)[1])


def runs_on_file(script, wanted):
    """Whether a script means the same on a file: it makes a pool first, which isn't too large."""
    makes = script[1:] and script[1].startswith(b"create ") and wanted[1] == b"ok"
    return makes and size_of(script) <= LARGEST_FILE and not any(map(IN_MEMORY_ALONE.match, script[1:]))


def on_file(ztxg, script, wanted):
    """What a script prints otherwise on a new file of its size, or None."""
    with tempfile.NamedTemporaryFile() as file:
        os.truncate(file.name, size_of(script))
        return difference(ztxg, script, wanted, file.name)


def check_row(words):
    """The title of a script, whether it ran on a file too, and what the program prints otherwise, or None."""
    ztxg, (script, wanted) = words
    differs, is_on_file = difference(ztxg, script, wanted), bool(runs_on_file(script, wanted))
    if not differs and is_on_file:
        found = on_file(ztxg, script, wanted)
        differs = found and f"on a file: {found}"
    return script[0].decode(errors="replace"), is_on_file, differs


def add_arguments(parser):
    add_program(parser)
    parser.add_argument("word", metavar="WORD", nargs="?", default="", help="of the titles that are run (all)")
    parser.add_argument("jobs", metavar="JOBS", type=int, nargs="?", default=1, help="processes at once (1)")


def main(ztxg, word, jobs):
    scripts, answers, wrong, files = parts("scripts"), parts("answers"), 0, 0
    if len(scripts) != len(answers):
        raise Failed(f"{len(scripts)} scripts have {len(answers)} answers", status=2)
    picked = [(ztxg, row) for row in zip(scripts, answers) if word.encode() in row[0][0]]
    with multiprocessing.Pool(jobs) as pool:
        for title, is_on_file, differs in pool.imap(check_row, picked):
            files += is_on_file
            if differs:
                wrong += 1
                print(f"{title}: {differs}", flush=True)
    print(f"{len(picked)} scripts, {files} of them on a file too: {wrong} differ")
    return int(wrong > 0)
