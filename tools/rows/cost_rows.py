"""Scripts whose lines are counted, in tables of rows that differ in one number.

- Commits: 1,000 small transactions, 50 in a group, each by four lines: lock, begin, commit, unlock. Before each, the
  lock of another owner that was granted first is let go and granted anew. `sync` is the mean of the lines that sync a
  group.
- Writes in the group: as these, but before 20 transactions that are counted the open group has so many writes, each a
  transaction on an object of its own.
- Unsynced groups: as these, with 100 writes in each group; with three, the oldest one is being synced and the next one
  waits.
- Reads: of 100 bytes of an object that each unsynced group has written to.
- Syncs of a group of one write, while the open group has so many.
- Syncs of a group that writes so many objects, with the blocks that this takes.
- Log writes of ten records, with so many records pending. Log flushes of one block, and the question whether a commit
  is durable, with so many log blocks kept.
- The last step of a sync, with so many log blocks that come back and so many that stay.
- Writes to a filled object of so many records, whose sync takes one record and what is above it. They fill its middle
  record anew, or append one; an append is locked by `append`.
"""

import collections

from tools.model import layout
from tools.model.layout import DIRTY_MAX, MIB, RECORD, levels_of

COMMITS = 1000
GROUP = 50
ROUNDS = 5
ROUND = 20
# Ten records of a write of so many bytes fill a log block: 4,008 bytes are 10 records of 400, of which 39 are no
# content.
LOG_RECORDS = 10
LOG_BYTES = 361
LOGGED_WRITES = 100
# So many writes of so many bytes fill a record.
PIECES, PIECE = 42, 96
assert PIECES * PIECE == RECORD
# The records of one transaction that fills an object, and how many of these are in a group.
FILLED, FILLS = 16, 20


class Script:
    """The lines of a script, which of them count and as what, how many blocks some take, and the names of its next lock
    and its next transaction.

    Each transaction is committed before the next one begins, so its name is the ordinal of its commit.
    """

    def __init__(self):
        self.lines = ["create tank 77", f"import {DIRTY_MAX}"]
        self.counted = {}
        self.takes = {}
        self.next_lock = 0
        self.next_tx = 0
        self.open = 9
        self.others = collections.deque()

    def count(self, *kinds):
        """The last lines, as many as there are kinds, count as these."""
        for at, kind in enumerate(kinds, len(self.lines) - len(kinds)):
            self.counted[at] = kind

    def lock(self, owner, number, high, low=0):
        return self.locked(f"lock {owner} {number} w {low} {high}")

    def locked(self, line):
        """The name of the lock that a line is granted."""
        self.lines.append(line)
        self.next_lock += 1
        return self.next_lock - 1

    def unlock(self, owner, lock):
        self.lines.append(f"unlock {owner} {lock}")

    def lock_other(self, other):
        """Another owner, numbered from 1 on, locks the object of that number, which may be there or not."""
        self.others.append((other, self.lock(100 + other, other, layout.MAX_LENGTH)))

    def renew_oldest(self):
        other, lock = self.others.popleft()
        self.unlock(100 + other, lock)
        self.lock_other(other)

    def transact(self, owner, shapes, contents=""):
        self.lines.append(f"begin {owner} {shapes}")
        self.lines.append(f"commit {self.next_tx} {contents}".rstrip())
        self.next_tx += 1

    def create(self, count):
        """Creates the objects below a number, up to 200 in a group."""
        for first in range(0, count, 200):
            some = range(first, min(first + 200, count))
            locks = [self.lock(1, number, layout.MAX_LENGTH) for number in some]
            self.transact(1, " ".join(f"c:{number}" for number in some))
            for lock in locks:
                self.unlock(1, lock)
            self.finish()

    def write(self, number):
        """A transaction that writes the first 100 bytes of an object."""
        lock = self.lock(2, number, 100)
        self.transact(2, f"w:{number}:0:100", "@100:x")
        self.unlock(2, lock)

    def fill(self, number, records):
        """So many records of an object get bytes, and all groups are synced."""
        lock = self.lock(2, number, layout.MAX_LENGTH)
        for at, first in enumerate(range(0, records, FILLED), 1):
            size = RECORD * min(FILLED, records - first)
            self.transact(2, f"w:{number}:{RECORD * first}:{size}", f"@{size}:x")
            if at % FILLS == 0:
                self.finish()
        self.unlock(2, lock)
        self.finish()

    def fill_record(self, number, record, is_append):
        """The record of an object is filled by transactions that count."""
        for place in range(RECORD * record, RECORD * (record + 1), PIECE):
            line = f"append 2 {number}" if is_append else f"lock 2 {number} w {place} {place + PIECE}"
            lock = self.locked(line)
            self.transact(2, f"w:{number}:{place}:{PIECE}", f"@{PIECE}:y")
            self.unlock(2, lock)
            self.count("lock", "begin", "commit", "unlock")

    def start_counted(self, blocks):
        """A sync starts that takes so many blocks, as the lines before and after it tell."""
        self.lines += ["status", "start", "status"]
        self.counted[len(self.lines) - 2] = "start"
        self.takes[len(self.lines) - 2] = blocks

    def write_logged(self, count, blocks):
        """So many writes to object 0. A log write comes after each of the first ones, as many as there are to be
        blocks."""
        for at in range(count):
            self.write(0)
            if at < blocks:
                self.lines.append("log-write")

    def write_many(self, count):
        """So many writes, each to an object of its own."""
        for number in range(count):
            self.write(number)

    def write_counted(self):
        """A write to object 0 that counts. Before it, the oldest lock of another owner is let go and granted anew."""
        if self.others:
            self.renew_oldest()
        self.write(0)
        self.count("lock", "begin", "commit", "unlock")

    def close(self):
        self.lines += ["close", "quiesce"]
        self.open += 1

    def finish(self):
        """The open group is closed, and all groups that are unsynced then are synced, the oldest first."""
        self.lines.append("sync")
        self.open += 1


Commits = collections.namedtuple("Commits", "MiB locks objects")
Writes = collections.namedtuple("Writes", "writes")
Groups = collections.namedtuple("Groups", "groups")
Reads = collections.namedtuple("Reads", "groups")
Syncs = collections.namedtuple("Syncs", "writes")
Blocks = collections.namedtuple("Blocks", "objects blocks")
LogWrites = collections.namedtuple("LogWrites", "pending")
LogFlushes = collections.namedtuple("LogFlushes", "kept")
LogEnds = collections.namedtuple("LogEnds", "back kept")
Records = collections.namedtuple("Records", "records append")


def commits(row):
    script = Script()
    script.create(row.objects)
    for other in range(1, row.locks + 1):
        script.lock_other(other)
    for done in range(1, COMMITS + 1):
        script.write_counted()
        if done % GROUP == 0:
            script.finish()
            script.count("sync")
    return script


def writes(row):
    script = Script()
    script.create(max(row.writes, 1))
    for _ in range(ROUNDS):
        script.write_many(row.writes)
        for _ in range(ROUND):
            script.write_counted()
        script.finish()
    return script


def start_older(script, groups, count):
    """All but the newest of so many unsynced groups get so many writes, and the oldest one's sync starts."""
    for older in range(groups - 1):
        script.write_many(count)
        script.close()
        if older == 0:
            script.lines.append("start")


def sync_older(script, groups):
    """Those groups are synced."""
    for older in range(groups - 1):
        if older > 0:
            script.lines.append("start")
        script.lines.append("finish")


def groups(row):
    script = Script()
    script.create(100)
    for _ in range(ROUNDS):
        start_older(script, row.groups, 100)
        script.write_many(100)
        for _ in range(ROUND):
            script.write_counted()
        sync_older(script, row.groups)
        script.finish()
    return script


def reads(row):
    script = Script()
    script.create(100)
    script.write(0)
    script.finish()
    start_older(script, row.groups, 100)
    script.write_many(100)
    script.lock(3, 0, 100)
    for _ in range(ROUND):
        script.lines.append("read 3 0 0 100")
        script.count("read")
    return script


def syncs(row):
    script = Script()
    script.create(max(row.writes, 1))
    for _ in range(ROUNDS):
        script.write(0)
        script.close()
        script.count("close", "quiesce")
        script.write_many(row.writes)
        script.lines += ["start", "finish"]
        script.count("start", "finish")
        script.finish()
    return script


def blocks(row):
    """A sync that takes so many blocks: each object has one and a block of pointers, 63 objects share one, and all have
    a root. The lines before and after a start tell how many it takes."""
    script = Script()
    script.create(row.objects)
    for _ in range(ROUNDS):
        script.write_many(row.objects)
        script.close()
        script.start_counted(row.blocks)
        script.lines.append("finish")
        script.count("finish")
    return script


def log_writes(row):
    """Each log write packs ten records, which fill a block."""
    script = Script()
    script.create(1)
    script.lock(2, 0, LOG_BYTES)
    shape, content = f"w:0:0:{LOG_BYTES}", f"@{LOG_BYTES}:x"
    for _ in range(row.pending - LOG_RECORDS):
        script.transact(2, shape, content)
    for _ in range(ROUNDS):
        for _ in range(LOG_RECORDS):
            script.transact(2, shape, content)
        script.lines.append("log-write")
        script.count("log-write")
    return script


def log_flushes(row):
    """Each log flush is of one block. The question is of the first commit, then of that of this block."""
    script = Script()
    script.create(1)
    for _ in range(ROUNDS):
        first = script.next_tx
        script.write_logged(row.kept, row.kept)
        script.lines.append("log-flush")
        script.write_logged(1, 1)
        script.lines.append("log-flush")
        script.count("log-flush")
        for kind, transaction in (("first", first), ("last", script.next_tx - 1)):
            script.lines.append(f"durable {transaction} {script.open}")
            script.count(kind)
        script.finish()
    return script


def log_ends(row):
    """A sync of one object has four blocks, a flush, four uberblocks and the flush that ends it."""
    script = Script()
    script.create(1)
    for _ in range(ROUNDS):
        script.write_logged(LOGGED_WRITES, row.back)
        script.close()
        script.write_logged(LOGGED_WRITES, row.kept)
        script.lines += ["start"] + ["step"] * 10
        script.count("end")
        script.finish()
    return script


def record_writes(row):
    """Each sync takes a record, its indirect block, the top if there is one, the directory and the root."""
    script = Script()
    script.create(1)
    script.fill(0, row.records)
    for at in range(ROUNDS):
        record = row.records + at if row.append else row.records // 2
        script.fill_record(0, record, row.append)
        script.close()
        script.start_counted(3 + levels_of(RECORD * row.records))
        script.lines.append("finish")
        script.count("finish")
    return script


# A table has its name, what makes the script of a row, the bytes of its pools, its kinds of lines, its pairs of rows,
# rows that are no pair, and kinds of lines that aren't judged.
Table = collections.namedtuple("Table", "name script size kinds pairs rows more", defaults=[(), ("sync",)])
SMALL = Commits(MiB=8, locks=1, objects=1)
LINES = ["lock", "begin", "commit", "unlock"]
# The records of an object that has room for one more in each round.
LONG = layout.MAX_LENGTH // RECORD - ROUNDS
TABLES = [
    Table(
        "Commits",
        commits,
        None,
        LINES,
        {
            "objects": (SMALL, SMALL._replace(objects=5000)),
            "locks of other owners": (SMALL, SMALL._replace(locks=250)),
            "bytes of the pool": (SMALL, SMALL._replace(MiB=1024)),
        },
    ),
    Table(
        "Commits after writes of their group",
        writes,
        64 * MIB,
        LINES,
        {f"1 or {many} writes": (Writes(1), Writes(many)) for many in (10, 100, 1000)},
    ),
    Table(
        "Commits with groups unsynced", groups, 64 * MIB, LINES, {"one or three groups": (Groups(1), Groups(3))}
    ),
    Table("Reads with groups unsynced", reads, 64 * MIB, ["read"], {"one or three groups": (Reads(1), Reads(3))}),
    Table(
        "Syncs beside writes of the open group",
        syncs,
        64 * MIB,
        ["close", "quiesce", "start", "finish"],
        {"none or 1000 writes": (Syncs(0), Syncs(1000))},
    ),
    Table(
        "Syncs by their blocks",
        blocks,
        64 * MIB,
        ["start", "finish"],
        {},
        [Blocks(1, 4), Blocks(10, 22), Blocks(100, 203), Blocks(1000, 2017)],
    ),
    Table(
        "Log writes of ten records",
        log_writes,
        256 * MIB,
        ["log-write"],
        {f"10 or {many} pending": (LogWrites(10), LogWrites(many)) for many in (100, 1000, 10_000)},
    ),
    Table(
        "Log flushes of a block",
        log_flushes,
        64 * MIB,
        ["log-flush"],
        {f"1 or {many} kept log blocks": (LogFlushes(1), LogFlushes(many)) for many in (10, 100)},
    ),
    Table(
        "Whether a commit is durable",
        log_flushes,
        64 * MIB,
        ["first", "last"],
        {},
        [LogFlushes(1), LogFlushes(10), LogFlushes(100)],
    ),
    Table(
        "Ends of syncs beside a log",
        log_ends,
        64 * MIB,
        ["end"],
        {"none or 100 that stay": (LogEnds(100, 0), LogEnds(100, 100))},
        [LogEnds(1, 0), LogEnds(10, 0)],
    ),
    Table(
        "Writes to a long object",
        record_writes,
        64 * MIB,
        LINES,
        {
            f"{kind}, 10 or {LONG} records": (Records(10, append), Records(LONG, append))
            for kind, append in (("in the middle", 0), ("at the end", 1))
        },
        (),
        ("start", "finish"),
    ),
]
