"""Rows of crashes: a sync, the log or an import is stopped, with each string of kept, lost and torn writes.

A row goes on in one pool. A round is a run that is stopped, the crash, imports that are stopped, and one that ends and
shows what it mounts. All answers are those of a plain serial pool (`tools/model/serial_pool.py`).
"""

from tools.model.contents import digest
from tools.model import layout
from tools.model.layout import MIB
from tools.model.serial_pool import LEAST, Image, Run, Tree
from tools.rows.script_row import Row, all_strings, shape_of, word_of

OBJECTS = range(4)


class Book(Row):
    """A row that is written with a plain serial pool beside it: a run of it, or the image that the run left.

    Locks and transactions are numbered from 0 on after each import.
    """

    def __init__(self, title):
        super().__init__(title, LEAST)
        self.image, self.run, self.begun = Image(Tree(4, b"tank", {}, {})), None, 0
        self.say("create tank 77", "ok")
        self.mount()

    def leave(self):
        """An import takes the device of a pool that is there as it is."""
        if self.run:
            self.image, self.run = self.run.crash(), None

    def mount(self):
        """An import, and a look at what it mounted."""
        self.leave()
        self.run, self.begun = Run(self.image.synced), 0
        records = len(self.image.entries)
        self.say(f"import {MIB}", f"synced {self.run.tree.group} open {self.run.open} records {records}")
        self.look()

    def look(self):
        """Owner 1 locks all objects, and reads what the serial pool has of them."""
        for number in OBJECTS:
            self.say(f"lock 1 {number} w 0 {layout.MAX_LENGTH}", f"lock {number}")
            self.read(number)

    def read(self, number):
        if number in self.run.mounted:
            content = self.run.mounted[number]
            self.say(f"read 1 {number} 0 {layout.MAX_LENGTH}", f"bytes {len(content)} {content.hex()}".rstrip())
        else:
            self.say(f"read 1 {number} 0 {layout.MAX_LENGTH}", "refused 9 NoObject")

    def begin(self, kind, number, place=0, content=b""):
        """A transaction of one operation begins in the open group."""
        op = kind, number, place, content
        entry, name = self.run.begin([op]), self.begun
        self.say(f"begin 1 {shape_of(op)}", f"tx {name} group {entry.group}")
        self.begun += 1
        return name, entry

    def commit(self, name, entry):
        ordinal, content = self.run.commit(entry), entry.ops[0][3]
        self.say(f"commit {name} {word_of(content)}".rstrip(), f"entry {ordinal} group {entry.group}")

    def transact(self, *op):
        """A transaction of one operation, which begins and is committed in the open group."""
        self.commit(*self.begin(*op))

    def close_group(self):
        self.run.open += 1
        self.say("close", f"open {self.run.open}")

    def quiesce(self):
        self.say("quiesce", f"quiesced {self.run.open - 1}")

    def close(self):
        """The open group is closed and quiesced."""
        self.close_group()
        self.quiesce()

    def start(self):
        """The sync of the group after the synced one starts."""
        self.run.start()
        self.say("start", f"syncing {self.run.sync.tree.group}")

    def step(self, count):
        """So many steps of the sync, and its end if that is the last of them."""
        for _ in range(count):
            is_last = self.run.step()
            self.say("step", f"synced {self.run.tree.group}" if is_last else "more")

    def finish(self):
        """The steps of the sync up to its end."""
        while not self.run.step():
            pass
        self.say("finish", f"synced {self.run.tree.group}")

    def status(self):
        self.say("status", self.run.status())

    def log_write(self):
        self.say("log-write", self.run.log_write_refusal() or f"logged {self.run.log_write()}")

    def log_flush(self):
        self.say("log-flush", "flushed" if self.run.log_flush() else "refused 20 NotReady")

    def durable(self, ordinal):
        group = self.run.entries[ordinal].group
        self.say(f"durable {ordinal} {group}", "durable " + ("yes" if self.run.is_durable(ordinal, group) else "no"))

    def crash(self, letters):
        """A crash, with a letter for each unflushed write."""
        self.say(f"crash {letters}".rstrip(), f"crashed {len(self.run.unflushed)}")
        assert len(letters) == len(self.run.unflushed)
        self.image, self.run = self.run.crash(letters), None

    def stop_import(self, stop, letters):
        """An import is stopped by a call that fails, and a crash."""
        self.leave()
        self.say(f"fail {stop.kind} {stop.number}", "ok")
        self.say(f"import {MIB}", stop.refusal)
        self.say(f"crash {letters}".rstrip(), f"crashed {len(stop.unflushed)}")
        self.image = self.image.stop(stop, letters)


def begun(title):
    """A pool with objects 1 and 2, in its first group."""
    book = Book(title)
    book.transact("c", 1)
    book.transact("c", 2)
    book.close()
    book.start()
    book.finish()
    return book


def fill(book, number):
    """Three groups. The oldest writes to both objects, and its sync starts. The next one writes to the first object
    again. The open one removes it, cuts the other one and makes a third."""
    digits = b"%04d" % number
    book.transact("w", 1, 0, digits)
    book.transact("w", 2, 4, digits)
    book.close()
    book.start()
    book.transact("w", 1, 2, digits)
    book.close()
    book.transact("d", 1)
    book.transact("l", 2, number % 11)
    book.transact("c", 3)


def first_sync(book, number):
    """The sync of the oldest of three groups has two records, each with its map, the directory and the root: six
    blocks."""
    fill(book, number)


def second_sync(book, number):
    """The oldest of three groups is synced. The sync of the next one has a record with its map, the directory and the
    root: four blocks."""
    fill(book, number)
    book.finish()
    book.start()


def small_sync(book, number):
    """The sync of a group that makes an object or removes it has the directory and the root: two blocks."""
    book.transact("d" if 3 in book.run.mounted else "c", 3)
    book.close()
    book.start()


# The name of a sync, its blocks, and what starts it.
SYNCS = [
    ("the first of three groups", 6, first_sync),
    ("the second of three groups", 4, second_sync),
    ("a small group", 2, small_sync),
]


def stopped_syncs():
    """A sync is stopped: after so many of its writes of blocks; after the flush of its blocks and so many writes of
    uberblocks; or after its last flush."""
    for name, blocks, start_one in SYNCS:
        stops = [(f"{count} blocks", count, count) for count in range(blocks + 1)]
        stops += [(f"{count} uberblocks", blocks + 1 + count, count) for count in range(5)]
        for where, calls, unflushed in [*stops, ("its last flush", None, 0)]:
            book = begun(f"crashes in the sync of {name}, after {where}")
            for number, letters in enumerate(all_strings(unflushed)):
                start_one(book, number)
                assert book.run.sync.blocks == blocks
                if calls is None:
                    book.finish()
                else:
                    book.step(calls)
                book.crash(letters)
                book.mount()
            yield book


def stopped_imports():
    """Imports that are stopped, with each string, of a pool that has one whole uberblock of its last sync, the third.
    An import that ends comes after each of them, or only after the last one."""

    def begun_image(title):
        book = begun(title)
        first_sync(book, 1234)
        book.step(6 + 5)
        book.crash("ttkt")
        return book

    for stop in begun_image("").image.stops():
        for is_each in [False] if stop.kind == "read" else [True, False]:
            after = "and one that ends after each" if is_each else "and one that ends after them"
            book = begun_image(f"imports that are stopped at {stop.kind} {stop.number}, {after}")
            for letters in all_strings(len(stop.unflushed)):
                book.stop_import(stop, letters)
                if is_each:
                    book.mount()
            book.mount()
            yield book


def some_strings(count):
    """Each string over up to three writes. Over more of them those that keep, lose or tear all, or all but one."""
    if count <= 3:
        return all_strings(count)
    odd = ["k" * at + letter + "k" * (count - at - 1) for letter in "lt" for at in range(count)]
    return [*(letter * count for letter in "klt"), *odd]


class LogBook(Book):
    """A row in which the log is used. A round is a text of moves, one character each:

        1, 2, 3    a transaction that writes to object 1, sets the length of object 2, or makes object 3 or removes it
        h, H       one as `3` begins, and is committed
        c, q       the open group is closed, and is quiesced
        s, ., e    a sync starts, makes a step, and goes on to its end
        w, f       a log write, and a log flush
        d          the questions whether the first commit and the last one are durable
        i          the status
    """

    def __init__(self, title):
        super().__init__(title)
        self.held, self.played = None, 0
        self.transact("c", 1)
        self.transact("c", 2)
        self.play("1cqs")
        self.finish()

    def operation(self, move):
        """The operation of a transaction that isn't refused."""
        if move == "1":
            return "w", 1, self.played % 7, b"%04d" % (self.played % 10_000)
        if move == "2":
            return "l", 2, self.played % 11
        return "d" if 3 in self.run.contents() else "c", 3

    def play(self, moves):
        calls = {
            "c": self.close_group,
            "q": self.quiesce,
            "s": self.start,
            ".": lambda: self.step(1),
            "e": self.finish,
            "w": self.log_write,
            "f": self.log_flush,
            "i": self.status,
        }
        for move in moves:
            self.played += 1
            if move.isdigit():
                self.transact(*self.operation(move))
            elif move == "h":
                self.held = self.begin(*self.operation(move))
            elif move == "H":
                self.commit(*self.held)
            elif move == "d":
                self.durable(0)
                self.durable(len(self.run.entries) - 1)
            else:
                calls[move]()

    def crash_after(self, moves, strings_of=all_strings):
        """A round of these moves for each string: the crash, and an import."""
        self.play(moves)
        for number, letters in enumerate(strings_of(len(self.run.unflushed))):
            if number > 0:
                self.play(moves)
            self.crash(letters)
            self.mount()


class LongBook(LogBook):
    """A row of the log with long records. Two more moves are

        4, 5       a transaction that writes to object 1, with a record of two parts or three

    What an import mounted is shown by its lengths and its digest."""

    def operation(self, move):
        lengths = {"4": 5_000, "5": 9_000}
        if move not in lengths:
            return super().operation(move)
        letter = b"%c" % (ord("a") + self.played % 26)
        return "w", 1, 1 + self.played % 6, letter * lengths[move]

    def look(self):
        super().look()
        self.say("digest", f"digest {digest(self.run.mounted_name, self.run.mounted)}")

    def read(self, number):
        content = self.run.mounted.get(number)
        self.say(f"length {number}", "refused 9 NoObject" if content is None else f"length {len(content)}")


def lost_log_blocks():
    """A crash with up to six log blocks that are not flushed. Two commits before them are durable."""
    for count in range(7):
        book = LogBook(f"crashes with {count} log blocks that are not flushed")
        writes = ["1w", "3w", "2w", "1w", "2w", "3w"][:count]
        book.crash_after("".join(["13wf", *writes[: count // 2], "cq", *writes[count // 2 :], "d"]))
        yield book


def lost_parts():
    """A crash with up to four log blocks that are not flushed: three parts of a record, and a short one behind it. Two
    commits before them are durable."""
    for count in range(1, 5):
        book = LongBook(f"crashes with {count} log blocks that are not flushed, and that have a long record")
        writes = ["5w", "w", "w", "3w"][:count]
        book.crash_after("".join(["13wf", *writes[:2], "cq", *writes[2:], "d"]))
        yield book


# Crashes beside a sync: what comes before, and the moves after each of which there is a crash. The sync of a group that
# makes object 3 or removes it has two blocks, a flush, four uberblocks and a flush.
BESIDE_SYNCS = [
    # The first log block has the record of the syncing group, which no import replays once the group is mounted. After
    # the log flush between two uberblocks that group is always mounted.
    ("the log is written between the calls of a sync, and flushed between its uberblocks", "3cqs", ".w.1w..2wf...."),
    # The first block is before the sync's header: the older uberblock names it, and the newer ones the block after it.
    ("the log is written between the uberblocks of a sync that names the next log block", "3wc1qs...", ".w.2w"),
    # The first block comes back with the last step. Its place is free for what is written next.
    ("log blocks come back with the last step of a sync", "3wcq1wfs", "........id1w1wfcqs..."),
    # The record of the next group stands before that of the syncing one.
    ("a log whose first record is of the next group, beside a sync", "hc1wfHwfqs", "........d"),
]


def crashed_beside(book, before, moves, strings_of):
    """A row with crashes after each of these moves that is a device call."""
    book.crash_after(before, strings_of)
    for at, move in enumerate(moves, 1):
        if move in ".wf":
            book.crash_after(before + moves[:at], strings_of)
    return book


def syncs_beside_log():
    """A crash after each device call of a sync, and of the log beside it."""
    for title, before, moves in BESIDE_SYNCS:
        yield crashed_beside(LogBook(f"crashes: {title}"), before, moves, all_strings)


# The same with long records. The sync of a group that writes 5,000 bytes to object 1 has five blocks.
LONG_BESIDE_SYNCS = [
    ("the parts of a long record are written between the calls of a sync", "3cqs5", ".w.w.w..f..."),
    # The sync's header is the block of the part that is written. The other part comes between its uberblocks.
    ("a begun record of the group that is synced", "4wcqs......", ".wf....13wf"),
    # The other part, and a record behind it, come once the group is synced. The next sync's header is behind both.
    ("a begun record of a synced group, and a record behind it", "4wcqs..........fd", ".1wwfcqs....."),
    ("the blocks of a whole long record come back with the last step of a sync", "5wwwc1wqs.......", "..f...di3wf"),
    ("a long record of the next group is kept from its first block on", "3wc5wwwfqs", "........di1wf"),
]


def syncs_beside_long_records():
    """A crash after each device call of a sync, and of a long record's parts beside it, with some of the strings."""
    for title, before, moves in LONG_BESIDE_SYNCS:
        yield crashed_beside(LongBook(f"crashes: {title}"), before, moves, some_strings)


def crashed(book, moves):
    """The image of a crash after these moves, with nothing unflushed."""
    book.play(moves)
    book.crash("")
    return book.image


def stopped_replays_of(make_book, what, moves, strings_of):
    """Imports of the image that these moves leave, stopped at each of their calls with these strings. One that ends
    comes after each, and shows the same."""

    def stop_each(book, stop):
        """A round for each string: the image, the import that is stopped, and the one after it."""
        for letters in strings_of(len(stop.unflushed)):
            assert crashed(book, moves).calls() == calls
            book.stop_import(stop, letters)
            book.mount()

    image = crashed(make_book(""), moves)
    calls, stops = image.calls(), image.stops()
    book = make_book(f"{what}, stopped at each of their reads")
    for stop in stops:
        if stop.kind == "read":
            stop_each(book, stop)
    yield book
    for stop in stops:
        if stop.kind != "read":
            book = make_book(f"{what}, stopped at {stop.kind} {stop.number}")
            stop_each(book, stop)
            yield book


def stopped_replays():
    """Imports that replay two records, with the record of a synced group between them."""
    return stopped_replays_of(LogBook, "imports that replay", "3cqs.1w.......3wf", all_strings)


def stopped_replays_of_long_records():
    """Imports that replay a long record. It is behind the record of a synced group that was begun before its sync, and
    before one that is begun and not whole."""
    moves = "4wcqs..........." + "4www" + "5wwf"
    return stopped_replays_of(LongBook, "imports that replay a long record", moves, some_strings)
