"""Crashes pools by chance, and compares all answers with a plain serial pool.

For SECONDS it makes scripts by chance (docs/SCRIPTS.md), runs each, and compares all answers with those
that it worked out before. The answers come from a list of entries, a map of objects, a name
(`tools/model/serial_pool.py`) and the rules of what is written when; nothing is taken from the program.

- A pool of 6 MiB gets rounds, one upon the other. A round is an import, transactions in up to three groups at once, of
  which one may be committed after entries of a newer group, and a sync. Some transactions give the pool a name, and
  some have a record that is longer than a log block. Objects go from one level of indirect blocks to two and back. Log
  writes, log flushes and the question whether a commit is durable come between all of them, also between the device
  calls of a sync and between the parts of a record.
- The run is stopped after any of the device calls: by a crash, or by a call that fails and then a crash or an import.
  The failing call is one of the sync, a log write or a log flush.
- A crash has a string of letters, which keep, lose or tear each unflushed write.
- Then up to three imports are stopped, each at one of its device calls that fails, and then by a crash or the next
  import.
- The import after all that mounts a group that the letters tell, and replays the records that they leave in the log.
  What it shows, by its name, its digest and its lengths, has to be the replay of the entries that are left. All
  acknowledged entries are among them, and none that is left out conflicts with a later one of them.

The first difference ends it with status 1, and prints the script up to there. The end prints how much was compared, and
how many strings over up to six unflushed writes of a run came.
"""

import collections
import random
import time

from tools import Failed
from tools.harness.program import add_program, run
from tools.model.charges import estimate, record_size
from tools.model.contents import Entry, apply, digest
from tools.model import layout
from tools.model.layout import DIRTY_MAX, LOG_AVAILABLE, LOG_RECORD_MAX, LOG_ROOM, NAMED, STRIP
from tools.model.serial_pool import LEAST, REFUSALS, Image, LogBlock, Run, Tree
from tools.rows.script_row import shape_of, word_of

OBJECTS = [0, 1, 2, 62, 63, 5_291]
NAMES = [b"tank", b"pond", b"a", b"Z.9", b"lake-" * 12 + b"_end"]
# Bytes of a write whose record fills one, two or three log blocks, or has a byte more, or is the longest one.
LONG = [3_969, 3_970, 7_977, 7_978, 11_985, 11_986, 65_497]
# Places of writes and lengths about the ends of strips.
LONG_PLACES = [STRIP - 4_032, STRIP - 1, STRIP, STRIP + 4_030, 2 * STRIP - 7]
LONG_LENGTHS = [STRIP - 1, STRIP, STRIP + 1, STRIP + 4_032, 2 * STRIP, 2 * STRIP + 5]
FEW = 6
ROUNDS = 40


class Pool:
    """A script with its answers, and a plain serial pool beside it: a run, and the image that it left."""

    def __init__(self, chance):
        self.chance = chance
        self.script, self.answers = [], []
        self.image, self.run = Image(Tree(4, b"tank", {}, {})), None
        self.seen, self.counts = set(), collections.Counter()
        self.say("create tank 77", "ok")
        self.start_run()

    def say(self, line, answer):
        self.script.append(line)
        self.answers.append(answer)

    def start_run(self):
        """An import that ends, and what it shows."""
        self.run, self.transactions = Run(self.image.synced), 0
        records = len(self.image.entries)
        self.say(f"import {DIRTY_MAX}", f"synced {self.run.tree.group} open {self.run.open} records {records}")
        self.counts["records"] += records
        self.counts["long records"] += sum(record_size(entry) > LOG_ROOM for entry in self.image.entries)
        self.show()
        for at, number in enumerate([*OBJECTS, NAMED]):
            self.say(f"lock 1 {number} w 0 {layout.MAX_LENGTH}", f"lock {at}")

    def show(self):
        name, objects = self.run.name(), self.run.contents()
        self.say("name", f"name {name.decode()}")
        self.say("digest", f"digest {digest(name, objects)}")
        for number in OBJECTS:
            shown = f"length {len(objects[number])}" if number in objects else "refused 9 NoObject"
            self.say(f"length {number}", shown)

    def some_op(self, objects):
        """An operation on one of these objects, or a new name, that isn't refused."""
        if self.chance.random() < 0.07:
            return self.some_name()
        number = self.chance.choice(OBJECTS)
        if number not in objects:
            return ("c", number, 0, b"")
        kind = self.chance.choice("wwwwlld")
        if kind == "d":
            return ("d", number, 0, b"")
        is_long = self.chance.random() < 0.3
        if kind == "l":
            lengths = LONG_LENGTHS if is_long else [0, 5, 4_031, 4_032, 4_033, 9_000]
            return ("l", number, self.chance.choice(lengths), b"")
        place = self.chance.choice(LONG_PLACES if is_long else [0, 1, 7, 4_030, 4_032, 8_060, 12_096])
        letter = self.chance.choice("abcdefghijklmnopqrstuvwxyz")
        return ("w", number, place, letter.encode() * self.some_length())

    def some_length(self):
        """The length of a write, which mostly is short."""
        limits = self.chance.choice([(1, 40)] * 17 + [(1_000, 3_969)] * 2 + [(3_970, 20_000)] + [None])
        return self.chance.randint(*limits) if limits else self.chance.choice(LONG)

    def some_name(self):
        """An operation that gives the pool a name, which may be the one that it has."""
        return ("n", NAMED, 0, self.chance.choice([*NAMES, self.run.name()]))

    def some_ops(self):
        """The operations of a transaction that isn't refused, or none if there is no room for one."""
        objects, ops = self.run.contents(), []
        for _ in range(self.chance.randint(1, 3)):
            op = self.some_op(objects)
            if self.has_room([*ops, op]):
                ops.append(op)
                objects = apply(objects, [op])
        return ops

    def has_room(self, ops):
        """Whether a transaction with these operations is neither too long nor lacks blocks."""
        entry = Entry(0, ops)
        return record_size(entry) <= LOG_RECORD_MAX and estimate(entry) + LOG_AVAILABLE - 1 <= self.run.available()

    def begin(self, ops):
        """Begins a transaction with these operations: its number and its entry."""
        tx, self.transactions = self.transactions, self.transactions + 1
        entry = self.run.begin(ops)
        self.say(f"begin 1 {' '.join(map(shape_of, ops))}", f"tx {tx} group {entry.group}")
        return tx, entry

    def commit(self, tx, entry):
        words = [word_of(content) for kind, _, _, content in entry.ops if kind in "wn"]
        ordinal = self.run.commit(entry)
        self.say(" ".join(["commit", str(tx), *words]), f"entry {ordinal} group {entry.group}")
        self.counts["names"] += any(kind == "n" for kind, _, _, _ in entry.ops)

    def transact(self):
        """A transaction, and perhaps the log after it."""
        self.commit_some()
        self.use_log(0.4)

    def commit_some(self):
        """A transaction, if there is room for one."""
        ops = self.some_ops()
        if ops:
            self.commit(*self.begin(ops))

    def use_log(self, share):
        """By chance a log write, or some parts of a record, a log flush, and whether a commit is durable."""
        if self.chance.random() < share:
            self.log_write()
            while self.run.unfinished and self.chance.random() < 0.8:
                self.log_write()
        if self.chance.random() < share / 2:
            self.say("log-flush", "flushed" if self.run.log_flush() else "refused 20 NotReady")
        if self.chance.random() < share / 2:
            self.ask_durable()

    def log_write(self):
        refusal = self.run.log_write_refusal()
        self.say("log-write", refusal or f"logged {self.run.log_write()}")
        self.counts["log writes"] += refusal is None

    def ask_durable(self):
        """Whether a commit is durable, or a number that none has."""
        ordinal = self.chance.randint(0, len(self.run.entries))
        group = self.run.entries[ordinal].group if ordinal < len(self.run.entries) else self.run.open
        answer = "yes" if self.run.is_durable(ordinal, group) else "no"
        self.say(f"durable {ordinal} {group}", f"durable {answer}")

    def close(self):
        """The open group gets entries, is closed and is quiesced. One entry may come after one of the next group."""
        for _ in range(self.chance.randint(0, 3)):
            self.transact()
        old, objects = self.run.open, self.run.contents()
        if self.chance.random() < 0.4 and len(objects) > 1 and self.run.available() >= 2 * LOG_AVAILABLE:
            late, other = self.chance.sample([*sorted(objects), NAMED], 2)
            held = self.begin([self.some_name() if late == NAMED else ("w", late, 3, b"older")])
            self.run.open += 1
            self.say("close", f"open {self.run.open}")
            self.commit(*self.begin([self.some_name() if other == NAMED else ("w", other, 3, b"newer")]))
            self.use_log(0.4)
            self.say("quiesce", "refused 20 NotReady")
            self.commit(*held)
        else:
            self.run.open += 1
            self.say("close", f"open {self.run.open}")
        self.use_log(0.3)
        self.say("quiesce", f"quiesced {old}")

    def start(self):
        """The sync of the oldest group starts."""
        self.run.start()
        self.say("start", f"syncing {self.run.sync.tree.group}")

    def step(self):
        is_last = self.run.step()
        self.say("step", f"synced {self.run.tree.group}" if is_last else "more")

    def step_beside_log(self, calls):
        """So many steps of the sync, and the log and transactions of the open group between them."""
        share = self.chance.choice([0, 0, 0.1, 0.4])
        for _ in range(calls):
            self.step()
            if self.chance.random() < share:
                self.commit_some()
            self.use_log(share)

    def finish(self):
        """The running sync up to its end, and what the pool shows of its blocks."""
        self.step_beside_log(self.chance.randint(0, len(self.run.sync.calls) - 1))
        while not self.run.step():
            pass
        self.say("finish", f"synced {self.run.tree.group}")
        self.say("status", self.run.status())

    def letters(self, count):
        """The letters of a crash. Of many writes mostly all but a few are kept, as whole long records need."""
        letters = self.chance.choice(["klt", "k" * 20 + "lt"]) if count > FEW else "klt"
        return "".join(self.chance.choice(letters) for _ in range(count))

    def crash(self, unflushed):
        """A crash with these unflushed writes: its letters."""
        letters = self.letters(len(unflushed))
        self.say(f"crash {letters}".rstrip(), f"crashed {len(letters)}")
        if len(letters) <= FEW:
            kinds = ["log block" if isinstance(write, LogBlock) else write for write in unflushed]
            self.seen.add((*kinds, letters))
        return letters

    def fail_call(self):
        """The next call of the sync, or a log write or a log flush, is refused, if there is one: whether it is."""
        run = self.run
        kind = self.chance.choice(["step", "step", "log-write", "log-flush"])
        if kind == "step" and run.sync:
            is_flush = run.refuse_step()
        elif kind == "log-write" and run.log_write_refusal() is None:
            run.log_write(is_refused=True)
            is_flush = False
        elif kind == "log-flush" and run.awaits_flush():
            is_flush = True
        else:
            return False
        self.say("fail flush 1" if is_flush else "fail write 1", "ok")
        self.say(kind, REFUSALS["flush" if is_flush else "write"])
        self.say(self.chance.choice(["length 1", "log-write", "log-flush", "step"]), "refused 5 Suspended")
        return True

    def stop_run(self):
        """The run is stopped after some device call of its sync, by a crash or by a call that fails."""
        self.counts["named runs"] += self.run.sync.tree.name != self.run.tree.name
        self.step_beside_log(self.chance.randint(0, len(self.run.sync.calls)))
        self.use_log(0.3)
        fails = self.chance.random() < 0.3 and self.fail_call()
        self.ask_durable()
        is_crashed = not fails or self.chance.random() < 0.5
        self.image = self.run.crash(self.crash(self.run.unflushed) if is_crashed else "")
        self.run = None
        self.counts["runs"] += 1

    def stop_import(self):
        """An import is stopped at a device call that fails."""
        stops = self.image.stops()
        kind = self.chance.choice(["read", "write", "write", "write", "flush", "flush"])
        stop = self.chance.choice([stop for stop in stops if stop.kind == kind])
        self.say(f"fail {stop.kind} {stop.number}", "ok")
        self.say(f"import {DIRTY_MAX}", stop.refusal)
        # Writes of the call before may be unflushed until the first flush.
        is_crashed = self.chance.random() < 0.7 and not (kind == "flush" and stop.number == 1)
        self.image = self.image.stop(stop, self.crash(stop.unflushed) if is_crashed else "")
        self.counts["imports"] += 1

    def round(self):
        """A run of up to three groups at once that is stopped, imports that are stopped, and one that ends."""
        self.close()
        self.start()
        for _ in range(self.chance.randint(0, 2)):
            if self.chance.random() < 0.6:
                self.close()
                for _ in range(self.chance.randint(0, 2)):
                    self.transact()
                self.show()
                self.finish()
                self.start()
        if self.chance.random() < 0.5:
            self.close()
            self.transact()
        self.show()
        self.stop_run()
        for _ in range(self.chance.choice([0, 0, 1, 2, 3])):
            self.stop_import()
        self.start_run()


def difference(ztxg, pool):
    """Runs the script of a pool: the lines up to an answer that differs, and that answer, or None."""
    ran = run([ztxg, "script", str(LEAST), "-"], pool.script)
    found = ran.lines()
    for at, wanted in enumerate(pool.answers):
        answer = found[at] if at < len(found) else "nothing"
        if answer != wanted:
            lines = "\n".join(pool.script[: at + 1])
            return f"{lines}\ncrashes.py: line {at + 1}: wanted `{wanted}`, found `{answer}`"
    if ran.status or len(found) != len(pool.answers):
        raise Failed(f"crashes.py: status {ran.status}, {len(found)} answers", status=2)
    return None


def add_arguments(parser):
    add_program(parser)
    parser.add_argument("seconds", metavar="SECONDS", type=float, nargs="?", default=60, help="for how long (60)")
    parser.add_argument("seed", metavar="SEED", type=int, nargs="?", default=0, help="of the chance (0)")


def main(ztxg, seconds, seed):
    chance = random.Random(seed)
    counts, seen, scripts, answers = collections.Counter(), set(), 0, 0
    end = time.monotonic() + seconds
    while time.monotonic() < end:
        pool = Pool(chance)
        for _ in range(ROUNDS):
            pool.round()
        differs = difference(ztxg, pool)
        if differs:
            print(differs)
            return 1
        scripts, answers = scripts + 1, answers + len(pool.answers)
        counts += pool.counts
        seen |= pool.seen
    print(f"{scripts} scripts, {answers} answers, {counts['runs']} stopped runs, {counts['imports']} stopped imports")
    print(f"{counts['log writes']} log writes, {counts['records']} replayed records, {counts['long records']} long")
    print(f"{counts['names']} transactions with a name, {counts['named runs']} runs stopped in the sync of a new name")
    print(f"{len(seen)} strings of letters over lists of up to {FEW} unflushed writes")
    return 0
