"""Runs scripts in which each request for memory fails once, and compares the answers with the undisturbed run.

The program takes its memory by `malloc` of the C library. The scripts are those of `tools/rows/*.rows` whose file or
title has the WORD, without the reads that they plan to fail. `cc` compiles a `malloc` that refuses one request of a run
(`tools/harness/shims/memory.c`). For each request of each script,

- the answers are those of the undisturbed run up to a line, which is refused `1 NoMemory`. That line again and all
  later lines then answer as undisturbed. In place of a `sync` a `start` and a `finish` do, since its group is closed by
  then. Plans that no call met yet are made again before the line, with the numbers that were left of them;
- or they are the undisturbed ones: the request was for speed alone;
- or the device in memory found no room for its own notes. Then the line is refused `3 Write` or `4 Flush`. After a
  crash that keeps, loses or tears all unflushed writes, an import shows what is mounted if the run crashes before that
  line or after it. A `create` that was refused so is made again, and all later lines then answer as undisturbed;
- or the program ends with status 3 before its next line, for a request of what reads the script;
- or it ends with status 2 before the first line, for a request of what reads the command line.

Each script is printed with its requests of each kind and with each difference. The end prints how many there were in
all, with status 1 if one differed.
"""

import collections
import multiprocessing
import re

from tools.harness import shims
from tools.harness.program import add_program, run
from tools.model.serial_pool import REFUSALS
from tools.rows.script_row import rows_with

SECONDS = 600
Answered = collections.namedtuple("Answered", "answers status")


def moved(answer, lines):
    """An answer of a line that comes so many lines later: only one of a bad command has the line's number."""
    return re.sub(r"^line (\d+):", lambda found: f"line {int(found[1]) + lines}:", answer)


class Script:
    """A row whose requests for memory fail."""

    def __init__(self, ztxg, shim, row):
        self.ztxg, self.shim, self.head = ztxg, shim, row.head
        _, self.size, self.moment, _ = row.head.split(" ", 3)
        # Lines that print nothing would move the answers away from their lines. A read that is planned to fail would be
        # another one if a block isn't kept for lack of memory.
        self.lines = [line for line, answer in row.lines if answer is not None and not line.startswith(b"fail read ")]
        self.kept = {}

    def run(self, lines, fail_at=0, count_file=""):
        """The answers and the status of a run in which this request fails."""
        environment = self.shim.environment(FAIL_AT=str(fail_at), COUNT_FILE=count_file)
        ran = run([self.ztxg, "script", self.size, "-", "--moment", self.moment], lines, SECONDS, env=environment)
        return Answered(ran.lines(), ran.status)

    def mounts(self, lines, fail_at=0):
        """The digests that imports show after these lines and a crash."""
        found = set()
        crashed = self.run([*lines, b"crash"], fail_at).answers[-1]
        count = int(re.fullmatch(r"crashed (\d+)", crashed)[1])
        for letter in b"klt":
            crash = b"crash " + bytes([letter]) * count if count else b"crash"
            found.add(tuple(self.run([*lines, crash, b"import 1048576", b"digest"], fail_at).answers[-1:]))
        return found

    def plans(self, line, calm):
        """The plans of the undisturbed run that no call met before this line, with the numbers that are left."""
        if line not in self.kept:
            made = {}
            for at, words in enumerate(map(bytes.split, self.lines[:line])):
                if words[0] == b"crash":
                    made.clear()
                if words[0] == b"fail":
                    made[words[1]] = at
            self.kept[line] = [
                b"fail %s %d" % (kind, self.left(kind, at, line, calm))
                for kind, at in made.items()
                if REFUSALS[kind.decode()] not in calm.answers[at + 1 : line]
            ]
        return self.kept[line]

    def left(self, kind, at, line, calm):
        """The number that is left of a plan when this line begins. The lines between made so many calls of its kind as
        there are least numbers that change an answer of theirs."""
        number = int(self.lines[at].split()[2])
        for made in range(number - 1):
            other = [*self.lines[:at], b"fail %s %d" % (kind, made + 1), *self.lines[at + 1 : line]]
            if self.run(other).answers == calm.answers[:line]:
                return number - made
        return 1

    def check(self, at, calm):
        """How the run ends if this request fails."""
        ran = self.run(self.lines, at)
        if ran == calm:
            return "for speed alone"
        both = zip(ran.answers, calm.answers)
        line = next((i for i, (found, wanted) in enumerate(both) if found != wanted), len(ran.answers))
        if line == len(ran.answers):
            if ran.status == 2 and line == 0:
                return "of the command line"
            return "of the script's reader" if ran.status == 3 else f"WRONG status {ran.status} after line {line}"
        answer = ran.answers[line]
        is_device = answer in (REFUSALS["write"], REFUSALS["flush"])
        if answer == "refused 1 NoMemory" or is_device and self.lines[line].startswith(b"create"):
            again, wanted = self.made_again(at, line, answer, calm)
            kind = "of the device's notes, at a create" if is_device else "refused 1, then undisturbed"
            return kind if again == wanted else f"WRONG answers after line {line}: {again}"
        if is_device:
            allowed = self.mounts(self.lines[:line]) | self.mounts(self.lines[: line + 1])
            found = self.mounts(self.lines[: line + 1], at)
            return "of the device's notes" if found <= allowed else f"WRONG mount after line {line}: {found - allowed}"
        is_bad_crash = self.lines[line].startswith(b"crash") and answer.endswith(": bad command")
        if is_bad_crash and b"fail write 1" in self.lines[:line]:
            # The write that was planned to fail was refused for its note, so it isn't among those that a crash may
            # leave.
            return "of the device's notes, at a planned failure"
        return f"WRONG answer {answer!r} to {self.lines[line]!r}"

    def made_again(self, at, line, answer, calm):
        """A run in which the refused line is made again, and how that has to end."""
        repeated, answers = [self.lines[line]], [moved(calm.answers[line], 1)]
        if self.lines[line] == b"sync":
            # Its start is refused, after its group was closed. If the sync is refused in the end, its start isn't.
            begun = answers[0].replace("synced", "syncing") if answers[0].startswith("synced") else None
            repeated, answers = [b"start", b"finish"], [begun, *answers]
        # The refused line made some of the calls that are counted, so the plans before it are made again.
        plans = self.plans(line, calm)
        repeated, answers = [*plans, *repeated], [*["ok"] * len(plans), *answers]
        again = self.run([*self.lines[: line + 1], *repeated, *self.lines[line + 1 :]], at)
        later = [moved(text, len(repeated)) for text in calm.answers[line + 1 :]]
        wanted = Answered([*calm.answers[:line], answer, *answers, *later], calm.status)
        if None in wanted.answers:
            place = wanted.answers.index(None)
            if re.fullmatch(r"syncing \d+", again.answers[place]):
                wanted.answers[place] = again.answers[place]
        return again, wanted

    def check_all(self):
        kinds, wrong = collections.Counter(), []
        with shims.shared_counts("requests") as counts:
            calm = self.run(self.lines, 0, counts.path)
            count = counts.read()["requests"]
        for at in range(1, count + 1):
            kind = self.check(at, calm)
            if kind.startswith("WRONG"):
                kind, wrong = "WRONG", [*wrong, f"{self.head}: request {at}: {kind}"]
            kinds[kind] += 1
        return self.head, kinds, wrong


def check_script(words):
    return Script(*words).check_all()


def add_arguments(parser):
    add_program(parser)
    parser.add_argument("word", metavar="WORD", nargs="?", default="", help="of the rows that are run (all)")
    parser.add_argument("jobs", metavar="JOBS", type=int, nargs="?", default=1, help="processes at once (1)")


def main(ztxg, word, jobs):
    rows, total = rows_with(word), collections.Counter()
    with shims.compiled("memory") as shim, multiprocessing.Pool(jobs) as pool:
        for head, kinds, wrong in pool.imap(check_script, [(ztxg, shim, row) for row in rows]):
            total += kinds
            counts = ", ".join(f"{count} {kind}" for kind, count in sorted(kinds.items()))
            print("\n".join([f"{head}: {counts}", *wrong]), flush=True)
    print(f"{len(rows)} scripts, {sum(total.values())} requests for memory")
    for kind, count in sorted(total.items()):
        print(f"{count:8} {kind}")
    return int(total["WRONG"] > 0)
