"""Stops scripts at each device call, and compares what follows with a plain serial pool.

The scripts are those of `tools/rows/*.rows` whose file or title has the WORD, except those that are no valid commands
or have refused calls of their own; and one of creates. All answers are those of the row, up to a stop, and after it
those of a plain serial pool (`tools/rows/stopped_rows.py`). Nothing is taken from the program. For each script,

- each write and flush of a second create fails once. It is made again, and the row answers as undisturbed;
- each read, write and flush after the create fails once. After a read the line again and all later lines answer as
  undisturbed. After a write or a flush of an import the next one mounts the same. After those of a pool all its steps
  are refused `5 Suspended`. Then there is a crash, or none, and an import;
- the run is stopped before each of its device calls, and at its end, by a crash and an import.

A first create makes the device, and no line before it can plan a refusal. So its calls are those of a second one.

A crash comes with each string of kept, lost and torn writes; over more than six with 729 that are drawn as Rust's
`rand_pcg` draws words (`tools/model/pcg.py`). What the import shows, by its name, its digest and its lengths, is the
replay of a cut of the run, which has all that was acknowledged (`Run.crash`). Of the images of a stop each SHARE-th has
its own import stopped at each of its calls, by a crash that keeps, loses or tears all its unflushed writes, by one by
chance, or by none. The next import shows the same.

The script of creates stops a create over a pool before each of its 399 calls, with these strings: 729 of seven writes
and of all 388 before the flush, and four of each number between. What an import finds follows from the order of the
writes: the pool of before, the new one, or none. Then a create makes a pool again.

The first difference is printed with its script, and ends it with status 1. The end prints how many there were of each
kind.
"""

import collections
import itertools
import multiprocessing

from tools import Failed
from tools.harness.program import add_program, run
from tools.rows.limit_rows import many_records
from tools.rows.script_row import rows_with
from tools.rows.stopped_rows import Creates, Script, is_whole

CHUNK, SECONDS = 50, 1_200


def compare(ztxg, size, rounds):
    """Runs rounds in one script: the first that differs, or None."""
    ran = run([ztxg, "script", str(size), "-"], [line for one in rounds for line, _ in one], SECONDS)
    found = iter(ran.lines())
    for one in rounds:
        for at, (line, wanted) in enumerate(one):
            answer = next(found, "nothing")
            if answer != wanted:
                lines = "\n".join(line for line, _ in one[: at + 1])
                return f"{lines}\nstops.py: line {at + 1} `{line}`: wanted `{wanted}`, found `{answer}`"
    return None if ran.status == 0 and next(found, None) is None else f"status {ran.status}"


def check_row(words):
    """The counts of a row, or of the creates if there is none, and what differs."""
    ztxg, row, share = words
    script = Script(row, share) if row else Creates(share)
    rounds = script.all_rounds()
    while chunk := list(itertools.islice(rounds, CHUNK)):
        script.counts["rounds"] += len(chunk)
        script.counts["answers"] += sum(map(len, chunk))
        difference = compare(ztxg, script.size, chunk)
        if difference:
            return script.title, script.counts, f"{script.title}:\n{difference}"
    return script.title, script.counts, None


def add_arguments(parser):
    add_program(parser)
    parser.add_argument("word", metavar="WORD", nargs="?", default="", help="of the rows that are stopped (all)")
    parser.add_argument("jobs", metavar="JOBS", type=int, nargs="?", default=1, help="processes at once (1)")
    told = "each SHARE-th image has its import stopped, with 0 none (1)"
    parser.add_argument("share", metavar="SHARE", type=int, nargs="?", default=1, help=told)


def main(ztxg, word, jobs, share):
    rows = rows_with(word) + [row for row in many_records() if word in row.head]
    picked = [row for row in rows if is_whole(row)] + [None] * (word in Creates.TITLE)
    total = collections.Counter()
    with multiprocessing.Pool(jobs) as pool:
        for title, counts, difference in pool.imap_unordered(check_row, [(ztxg, row, share) for row in picked]):
            total += counts
            print(f"{title}: {', '.join(f'{count} {kind}' for kind, count in sorted(counts.items()))}", flush=True)
            if difference:
                raise Failed(difference)
    print(f"{len(picked)} scripts, from {len(rows)} rows: no difference")
    for kind, count in sorted(total.items()):
        print(f"{count:8} {kind}")
