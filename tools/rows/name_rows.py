"""Rows of the pool's name: a sync with a new name, or an import after one, is stopped, with each string of kept, lost
and torn writes.

The sync of a group that only gives a name has twelve calls: a flush; the configs of labels 0 and 2, a flush; four
uberblocks, a flush; the configs of labels 1 and 3, a flush. The group and its name are mounted together, if one of its
uberblocks stands. All answers are those of a plain serial pool (`tools/model/serial_pool.py`).
"""

from tools.model import layout
from tools.model.layout import NAMED
from tools.rows.crash_rows import Book
from tools.rows.script_row import all_strings

CALLS = 12


class NameBook(Book):
    """A row in which the pool gets names. After each import owner 1 locks the name and object 1."""

    def look(self):
        self.say(f"lock 1 {NAMED} w 0 {layout.MAX_LENGTH}", "lock 0")
        self.say(f"lock 1 1 w 0 {layout.MAX_LENGTH}", "lock 1")
        self.say_name()

    def say_name(self):
        self.say("name", f"name {self.run.name().decode()}")

    def begin_name(self, name):
        """A transaction that gives this name begins in the open group."""
        return self.begin("n", NAMED, 0, name)

    def rename(self, name):
        self.commit(*self.begin_name(name))

    def crash_after(self, play):
        """A round of `play` for each string over what it leaves unflushed: the crash, and an import."""
        play(self, 0)
        for number, letters in enumerate(all_strings(len(self.run.unflushed))):
            if number > 0:
                play(self, number)
            self.crash(letters)
            self.mount()


def same_name(book, number):
    """The name that the pool has already."""
    book.rename(book.run.name())
    book.close()


def two_names(book, number):
    """Two names in one group, of which the last one counts."""
    book.rename(b"first%d" % number)
    book.rename(b"last%d" % number)
    book.close()


def late_name(book, number):
    """A name of an older group, which is committed after a newer group's begin; and then the newer group's name."""
    older = book.begin_name(b"older%d" % number)
    book.close_group()
    newer = book.begin("d" if 1 in book.run.contents() else "c", 1)
    book.commit(*older)
    book.say_name()
    book.commit(*newer)
    book.rename(b"newer%d" % number)
    book.say_name()
    book.quiesce()


def logged_name(book, number):
    """A name whose record is in the log, so that an import replays it if its group isn't mounted."""
    book.rename(b"logged%d" % number)
    book.log_write()
    book.log_flush()
    book.close()


CASES = [
    ("the same name", same_name),
    ("two names in one group", two_names),
    ("a name of an older group, committed after a newer group's begin", late_name),
    ("a name that is in the log", logged_name),
]


def stopped_names():
    """A sync with a name is stopped after each of its calls."""
    for title, give_name in CASES:
        for calls in range(CALLS + 1):
            book = NameBook(f"crashes of {title}, after {calls} of {CALLS} calls of its sync")

            def play(book, number, give_name=give_name, calls=calls):
                give_name(book, number)
                book.start()
                assert len(book.run.sync.calls) == CALLS
                book.step(calls)

            book.crash_after(play)
            yield book


def even_labels(book, number):
    """Labels 0 and 2 alone have the new name: the last two configs of its sync are torn."""
    book.rename(b"even%d" % number)
    book.close()
    book.start()
    book.step(CALLS - 1)
    book.crash("tt")


def log_alone(book, number):
    """The log alone has the new name."""
    book.rename(b"log%d" % number)
    book.log_write()
    book.log_flush()
    book.crash("")


def stopped_imports_of_names():
    """An import after a new name is stopped at each of its writes and flushes. One that ends comes after it."""
    for title, leave in [("labels 0 and 2 alone have", even_labels), ("the log alone has", log_alone)]:
        book = NameBook("")
        leave(book, 0)
        for stop in book.image.stops():
            if stop.kind == "read":
                continue
            book = NameBook(f"imports that are stopped at {stop.kind} {stop.number}, and {title} the new name")
            for number, letters in enumerate(all_strings(len(stop.unflushed))):
                leave(book, number)
                book.stop_import(stop, letters)
                book.mount()
            yield book
