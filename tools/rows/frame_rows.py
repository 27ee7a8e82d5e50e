"""Worked frames, with what `docs/FRAMES.md` says of their answers, and of pools that aren't opened.

A request stands here as its call, what it needs, and the wanted answer: what came of it, and its content. A receipt and
a status have their numbers one by one, and None for one that isn't judged.
"""

import collections
import errno
import os
import struct

from tools.harness.pool_files import SIZE
from tools.model import layout
from tools.model.formats import table
from tools.model.frames import (
    BAD_RECORD,
    REQUESTS,
    Opened,
    Request,
    Unopened,
    frame,
    refusal_bytes,
    requests_frame,
    string,
    unopened_frame,
)
from tools.model.layout import AREA, BLOCK, DATA, MIB, OBJECTS, RECORD
from tools.model.pool_bytes import record
from tools.model.serial_pool import LEAST

# Openings

# That of a new pool, and that of the pool of `REPLAYED`, once its process was killed.
NEW, REOPENED = Opened(77, 8, 0), Opened(77, 12, 4)
NAMES = {int(number): name.split()[0] for number, name, _ in table("| n | name | when |")}
CAUSE = "ztxg: cause: "


def system(number):
    """The opening of a file for which the system has this error."""
    return Unopened(0, 0, 0, number, f"{os.strerror(number)} (os error {number})")


def refusal(number, kind=0, address=0):
    """The opening of a pool with this refusal, whose cause is any sentence."""
    return Unopened(number, kind, address, 0, None)


MISSING, DENIED = system(errno.ENOENT), system(errno.EACCES)
NOT_REGULAR = Unopened(0, 0, 0, 0, "not a regular file")
IN_USE = Unopened(0, 0, 0, errno.EAGAIN, "in use by another process or device")
# So many zeros are no pool.
ZEROS = [(SIZE, refusal(6)), (LEAST - 1, refusal(8)), (0, refusal(8))]
BAD_LIMITS = [("--dirty", "4095"), ("--dirty", "1099511627777"), ("--cache", "0"), ("--cache", "262145")]
# The data block of the first object of a new pool lies behind the block that the import took for the log.
FIRST_DATA = AREA + BLOCK
DAMAGED = refusal(7, DATA, FIRST_DATA)


def first_line(opening, file):
    """What a process says first on standard error that doesn't open the pool in a file."""
    if not opening.refusal:
        return f"ztxg: cannot use {file}\n"
    damage = f" {opening.kind} {opening.address}" if opening.kind else ""
    return f"ztxg: refused {opening.refusal} {NAMES[opening.refusal]}{damage}\n"


def is_unopened(wanted, file, ran):
    """Whether a run of `serve -v` ended as one that doesn't open the pool in a file. Its opening has the cause that
    standard error has."""
    if wanted.cause is None:
        wanted = wanted._replace(cause=ran.error_text().partition(CAUSE)[2].rstrip("\n"))
    errors = f"{first_line(wanted, file)}{CAUSE}{wanted.cause}\n"
    status = 1 if wanted.refusal else 3
    return bool(wanted.cause) and ran == (status, unopened_frame(wanted), errors.encode())


# Frames on a new pool of a size that is served with these options.
Row = collections.namedtuple("Row", "title frames options size", defaults=[(), SIZE])

# Answers

FIELDS = {1: "<2Q", 2: "<2Q", 6: "<7Q"}
STATUS = ("synced", "syncing", "middle", "open", "dirty", "free", "available")
FLUSHED = (8, b"")
TANK = (10, string(b"tank"))
ABSENT, EXISTS, BAD_RANGE, NO_SPACE, THROTTLED = 9, 10, 11, 16, 17


def is_wanted(wanted, answer):
    """Whether an answer is as it is wanted."""
    came, content = wanted
    if came != answer.came or came not in FIELDS:
        return (came, content) == (answer.came, answer.content)
    found = struct.unpack(FIELDS[came], answer.content)
    return all(one is None or one == other for one, other in zip(content, found))


def refused(number):
    return 0, refusal_bytes(number)


def committed(ordinal, group=None):
    return 1, (ordinal, group)


def durable(ordinal, group=None):
    return 2, (ordinal, group)


def content(text):
    return 3, string(text)


def length(count):
    return 4, struct.pack("<Q", count)


def listed(*objects):
    return 5, struct.pack("<I", len(objects)) + b"".join(struct.pack("<IQ", *one) for one in objects)


def status(**fields):
    return 6, tuple(fields.get(name) for name in STATUS)


def is_durable(yes):
    return 7, bytes([yes])


def synced(group):
    return 9, struct.pack("<Q", group)


# Requests


def create(*numbers):
    return [("c", number, 0, b"") for number in numbers]


def write(text, number=1, place=0):
    return "w", number, place, text


def reads(number, low, high, wanted):
    return "read", (number, low, high), wanted


def lists(first, past, *objects):
    return "objects", (first, past), listed(*objects)


def asks_status(**fields):
    return "status", (), status(**fields)


FLUSH = ("flush", (), FLUSHED)
HELLO = [*create(2, 3, 7), write(b"hello", 3)]
# An object of one data block, which is `FIRST_DATA`.
FIRST = [("transact", [*create(1), write(b"abcd")], committed(0, 9))]


def limit(count):
    """The option of a dirty limit."""
    return "--dirty", str(count)


ROWS = [
    Row(
        "what was committed is read from each of its bytes on",
        [
            [("transact", [*create(1), write(b"hello")], committed(0, 9))],
            [
                reads(1, 0, 5, content(b"hello")),
                reads(1, 1, 9, content(b"ello")),
                reads(1, 5, 9, content(b"")),
                ("length", (1,), length(5)),
                reads(2, 0, 1, refused(ABSENT)),
                ("length", (2,), refused(ABSENT)),
                reads(1, 3, 3, refused(BAD_RANGE)),
                reads(OBJECTS, 0, 1, refused(BAD_RANGE)),
            ],
        ],
    ),
    Row(
        "objects are listed from a number on, below another one",
        [
            [("transact", HELLO, committed(0))],
            [
                lists(0, OBJECTS, (2, 0), (3, 5), (7, 0)),
                lists(3, OBJECTS, (3, 5), (7, 0)),
                lists(3, 7, (3, 5)),
                lists(8, OBJECTS),
                lists(7, 7),
            ],
        ],
    ),
    Row(
        "a pool has its name, and each sync that of the group that was open",
        [
            [("name", (), TANK), asks_status(synced=8, open=9, dirty=0)],
            *([("sync", (), synced(group)), asks_status(synced=group, open=group + 1)] for group in (9, 10, 11)),
            [
                ("transact", [*create(1), ("n", layout.NAMED, 0, b"pond")], committed(0)),
                ("name", (), (10, string(b"pond"))),
            ],
        ],
    ),
    Row(
        # The owner of all requests is one, so a lock that is left would refuse the create.
        "a refused transaction leaves no lock and uses up no ordinal, and one may overlap itself",
        [
            [
                ("transact", [write(b"1")], refused(ABSENT)),
                ("transact", [*create(1), write(b"7"), write(b"8")], committed(0)),
                ("transact", [write(b"9"), *create(1)], refused(EXISTS)),
                ("transact_durably", [write(b"9"), write(b"9", 2)], refused(ABSENT)),
                ("transact", [write(b"6", place=1)], committed(1)),
                reads(1, 0, 9, content(b"86")),
            ]
        ],
    ),
    Row(
        "a limit below the charge of a transaction refuses it at once",
        [[("transact", create(1), refused(THROTTLED)), ("objects", (0, OBJECTS), listed())]],
        limit(4_096),
    ),
    Row(
        "at the charge of a transaction one is committed after the other",
        [[("transact", create(at), committed(at)) for at in range(20)] + [lists(18, OBJECTS, (18, 0), (19, 0))]],
        limit(8_192),
    ),
]

# 6 MiB have 384 blocks, of which 383 are available in a new pool. A create reserves 2, a write 5, and 6 if it is over
# two records: so 17 are left. A log write takes one, and needs 17. So after the first one the next has none, and the
# remove's group is synced.
FILLING = [
    ("transact", create(1), committed(0)),
    *(("transact", [write(b"full")], committed(at)) for at in range(1, 69)),
    *(("transact", [write(b"full", place=RECORD - 2)], committed(at)) for at in range(69, 73)),
]

# Rows that hold if no group is closed meanwhile.
SOON = [
    Row(
        "a commit is durable after a flush, before its group is synced",
        [
            [
                *(("transact", create(at), committed(at, 9)) for at in range(3)),
                *(("durable", (at, 9), is_durable(False)) for at in range(4)),
                FLUSH,
                *(("durable", (at, 9), is_durable(at < 3)) for at in range(4)),
                asks_status(synced=8, syncing=0, middle=0, open=9),
            ]
        ],
    ),
    Row(
        "a durable commit and those before it are durable before their group is synced",
        [
            [
                ("transact", create(1), committed(0, 9)),
                ("transact_durably", [write(b"1")], durable(1, 9)),
                ("durable", (1, 9), is_durable(False)),
            ],
            [
                *(("durable", (at, 9), is_durable(True)) for at in range(2)),
                asks_status(synced=8, syncing=0, middle=0, open=9),
            ],
        ],
    ),
    Row(
        "commits for which the log has no block are durable by a sync, and then the log serves again",
        [
            [
                *FILLING,
                asks_status(synced=8, available=17),
                FLUSH,
                asks_status(synced=8, available=16),
                ("transact", [("d", 1, 0, b"")], committed(73)),
                asks_status(synced=8, available=14),
                FLUSH,
                ("durable", (73, 9), is_durable(True)),
                asks_status(synced=9, available=383),
                ("transact", create(1), committed(74, 10)),
                FLUSH,
                asks_status(synced=9, available=380),
            ]
        ],
        limit(4 * MIB),
        LEAST,
    ),
]

# What a process is asked before it is killed, and what the next one is asked. An import's group is the fourth one after
# that of the last sync.
REPLAYED = [
    *(("transact_durably", create(number), durable(at, 9)) for at, number in enumerate((2, 3, 7))),
    ("transact_durably", [write(b"hello", 3)], durable(3, 9)),
]
SHOWN = ["name tank", "guid 77", "group 8", "import 1", "blocks 896 used 1", "records 4", "objects 3"]
SHOWN += ["2 0", "3 5", "7 0"]
MOUNTED = [
    asks_status(synced=12, open=13, dirty=0),
    lists(0, OBJECTS, (2, 0), (3, 5), (7, 0)),
    reads(3, 0, 9, content(b"hello")),
    ("transact", [write(b"H", 3)], committed(0, 13)),
]

# So many transactions, asked for in frames of so many: a create, and then writes of one byte.
Counted = collections.namedtuple("Counted", "title count step options size", defaults=[(), SIZE])
COUNTED = [
    # Each write is charged 20,480 bytes.
    Counted("at a limit that 51 writes reach", 10_000, 500, limit(MIB)),
    # The limit is above what the pool has room for: some 73 writes.
    Counted("in a pool that has room for 73 writes", 2_000, 500, limit(16 * MIB), LEAST),
]


def counted(at):
    """The request with this number."""
    return "transact", create(1) if at == 0 else [write(b"9")], committed(at)


def filled(count):
    """Thirty objects of 60,000 bytes, of which so many have room in a pool of 6 MiB. Before one is refused, all is
    synced that was charged."""
    asked = [
        ("transact", [*create(at), write(b"7" * 60_000, at)], committed(at) if at < count else refused(NO_SPACE))
        for at in range(30)
    ]
    return [*asked, asks_status(dirty=0), lists(0, OBJECTS, *((at, 60_000) for at in range(count)))]


# Frames one after another: durable bytes, which are read; one of version 2; two questions; and the length of a frame
# that is none.
STREAM = [
    requests_frame(
        [
            Request(1, "transact_durably", [*create(1), write(b"hello")]),
            Request(2, "read", (1, 0, 9)),
            Request(3, "name", ()),
            Request(4, "objects", (0, 3)),
            Request(5, "transact", create(1)),
        ]
    ),
    requests_frame([Request(6, "transact", create(2))]).replace(b"\1\0\1\0", b"\2\0\1\0", 1),
    requests_frame([Request(7, "durable", (0, 9)), Request(8, "length", (2,))]),
    b"\5\0\0\0",
]
assert [len(one) for one in STREAM] == [161, 48, 50, 4]

# How many bytes of them are there, the status, and how many bytes are answered.
STREAM_ROWS = [
    (0, 0, 0),
    (2, 3, 0),
    (160, 3, 0),
    (161, 0, 123),
    (200, 3, 123),
    (209, 0, 135),
    (259, 0, 183),
    (263, 3, 195),
]

CREATE = record(9, 0, create(1))


def changed(place, byte):
    """The record of a create with another byte."""
    return CREATE[:place] + bytes([byte]) + CREATE[place + 1 :]


def transaction(content):
    """A frame of one transaction that has these bytes for its record."""
    return frame(REQUESTS, 1, struct.pack("<QB", 1, 1) + content)


# Bytes in the place of a record, and the refusal of the frame or what came of the transaction.
RECORDS = [
    # A length below the operations' sizes, above them, and above the bytes; fewer bytes, and none.
    (changed(0, 0x1A), BAD_RECORD),
    (changed(0, 0x1C), BAD_RECORD),
    (changed(1, 0x10), BAD_RECORD),
    (CREATE[:26], BAD_RECORD),
    (b"", BAD_RECORD),
    # A group and an ordinal above 2^60.
    (changed(11, 0x11), BAD_RECORD),
    (changed(19, 0x20), BAD_RECORD),
    # No operation, and a count above the operations; no such kind, and no such object.
    (changed(20, 0), BAD_RECORD),
    (changed(20, 2), BAD_RECORD),
    (changed(22, 0), BAD_RECORD),
    (changed(22, 6), BAD_RECORD),
    (changed(24, 0x15), BAD_RECORD),
    (record(9, 0, []), BAD_RECORD),
    # A write of no byte, one past the greatest length and one to it, and a name that is none.
    (record(9, 0, [write(b"")]), BAD_RECORD),
    (record(9, 0, [write(b"wxyz", place=layout.MAX_LENGTH - 3)]), BAD_RECORD),
    (record(9, 0, [write(b"7" * 65_498)]), BAD_RECORD),
    (record(9, 0, [("n", layout.NAMED, 0, b"4")]), BAD_RECORD),
    # The remove of object 1, and its create. Then the longest write, and one to the greatest length.
    (changed(22, 2), refused(ABSENT)),
    (CREATE, committed(0)),
    (record(9, 0, [write(b"7" * 65_497)]), committed(1)),
    (record(9, 0, [write(b"wxyz", place=layout.MAX_LENGTH - 4)]), committed(2)),
]
