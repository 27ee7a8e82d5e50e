"""Rows of syncs and imports that take an object from one level of indirect blocks to two or back, and are stopped.

Some of the strings of kept, lost and torn writes come after each call.
All answers are those of a plain serial pool (`tools/model/serial_pool.py`).
"""

from tools.model.layout import STRIP
from tools.rows.crash_rows import LongBook, crashed_beside, some_strings, stopped_replays_of


class LevelBook(LongBook):
    """A row of the log with an object of up to three strips. Four more moves are

        6          a transaction that writes two bytes to object 1, one at the end of its first strip and one behind it
        7, 8, 9    one that sets its length to a strip, to two strips and five bytes, or to 0
    """

    def operation(self, move):
        lengths = {"7": STRIP, "8": 2 * STRIP + 5, "9": 0}
        if move == "6":
            return "w", 1, STRIP - 1, b"%02d" % (self.played % 100)
        return ("l", 1, lengths[move]) if move in lengths else super().operation(move)


# An object of a strip whose first record has a block, and one of two strips with a record in each, once they are
# synced.
SHORT, TALL = "917cqse", "96cqse"

# What comes before a sync with what is in it, and how many blocks the sync writes.
SYNCS = [
    # Two records, each with its indirect block, the top, the directory and the root.
    ("a write takes an object from one level of indirect blocks to two", SHORT + "6cqs", 7),
    # The top, the directory and the root.
    ("a length takes an object from one level of indirect blocks to two", SHORT + "8cqs", 3),
    # The first indirect block, the directory and the root.
    ("a cut takes an object from two levels of indirect blocks to one", TALL + "7cqs", 3),
    # The directory and the root.
    ("a cut leaves nothing of an object of two levels of indirect blocks", TALL + "9cqs", 2),
    ("a write that is in the log takes an object to two levels", SHORT + "6wfcqs", 7),
    ("a cut that is in the log takes an object to one level", TALL + "7wfcqs", 3),
]


def stopped_levels():
    """A sync that changes the levels of an object is stopped after each of its calls: the writes of its blocks, a
    flush, four uberblocks and a flush."""
    for title, before, blocks in SYNCS:
        yield crashed_beside(LevelBook(f"crashes: {title}"), before, "." * (blocks + 6), some_strings)


REPLAYS = [
    ("imports that take an object to two levels of indirect blocks", SHORT + "6wf"),
    ("imports that take an object to one level of indirect blocks", TALL + "7wf"),
]


def stopped_replays_of_levels():
    """An import that replays a record which changes the levels of an object is stopped at each of its calls."""
    for what, moves in REPLAYS:
        yield from stopped_replays_of(LevelBook, what, moves, some_strings)
