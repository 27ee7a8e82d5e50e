"""Worked images of a hostile writer whose log has a long record, with what `check` has to print of each.

The pool is that of `hostile_images.py`. Its log gets a record of three parts and a short one behind it. Each row has a
field of the record wrong, or of one of its blocks, with every check made right. Then neither record is replayed.
"""

from tools.model import layout
from tools.model.layout import AREA, BLOCK, DATA, LAST, LOG_ROOM, MIB, NAMED, OBJECTS
from tools.model.pool_bytes import numbers, parts_of, record
from tools.rows.hostile_images import CHAIN_AT, LOG_AT, Tank

CLEAN = [f"clean group 9 records {count}" for count in range(4)]
# The records of a creation of object 2 and of object 3.
SECOND, THIRD = (record(10, 0, [("c", number, 0, b"")]) for number in (2, 3))


def write(size, number=1, place=0):
    return "w", number, place, b"x" * size


def written(size, group=10, **where):
    """The record of a write of so many bytes, which has 39 bytes more."""
    return record(group, 0, [write(size, **where)])


LONG = written(9_000)
PARTS = parts_of(LONG)
assert [len(part) for part in PARTS] == [LOG_ROOM, LOG_ROOM, 1_023]


def log(*contents, **odd):
    """A log whose blocks have these bytes."""
    return lambda: Tank().log_blocks(*contents, **odd)


def whole(content):
    """A log of one record, in its parts."""
    return log(*parts_of(content))


def odd_part(part, **fields):
    """The block of a part has other fields."""
    return log(*PARTS, SECOND, odd=part, **fields)


def odd_field(at, new):
    """The record has other bytes at a place."""
    content = LONG[:at] + new + LONG[at + len(new) :]
    return log(*parts_of(content), SECOND)


def other_block(part, change):
    """The block of a part is another one."""

    def make():
        tank = Tank().log_blocks(*PARTS, SECOND)
        tank.put(CHAIN_AT[part], change(tank.block(CHAIN_AT[part])))
        return tank

    return make


def in_version(*versions, contents=(*PARTS, SECOND)):
    """The active uberblock has these versions in the labels, the last one in all that follow."""
    return lambda: Tank().log_blocks(*contents).versions(*versions)


def of_old_pool(*contents):
    """A pool that a program of version 1 wrote, with this log."""
    return lambda: Tank(version=1).log_blocks(*contents)


def creates_and_removes(letters):
    return record(10, 0, [(letter, 1, 0, b"") for letter in letters])


# Nothing is wrong.
RIGHT = [
    ("a long record", whole(LONG), CLEAN[1]),
    ("a long record and a short one behind it", log(*PARTS, SECOND), CLEAN[2]),
    ("a long record between short ones", log(SECOND, *PARTS, THIRD), CLEAN[3]),
    ("two long records", log(*PARTS, *PARTS), CLEAN[2]),
    ("a long record of the synced group", log(*parts_of(written(9_000, group=9)), SECOND), CLEAN[1]),
    ("a record of 4,008 bytes", whole(written(3_969)), CLEAN[1]),
    ("a record of 4,009 bytes", whole(written(3_970)), CLEAN[1]),
    ("a record of 8,016 bytes", whole(written(7_977)), CLEAN[1]),
    ("a record of 8,017 bytes", whole(written(7_978)), CLEAN[1]),
    ("a record of 65,536 bytes", whole(written(65_497)), CLEAN[1]),
    (
        "a long record up to the end of the longest object",
        lambda: whole(written(9_000, place=layout.MAX_LENGTH - 9_000))(),
        CLEAN[1],
    ),
    ("a long record of 1,000 operations", whole(creates_and_removes("dc" * 500)), CLEAN[1]),
    (
        "a long record that gives a name",
        whole(record(10, 0, [write(9_000), ("n", NAMED, 0, b"pond")])),
        CLEAN[1],
        "pond",
    ),
    *((f"part {part} with another group", odd_part(part, group=2**64 - 1), CLEAN[2]) for part in range(3)),
]

# The log ends before the record, or before the record that isn't whole.
ENDED = [
    ("a record of 65,537 bytes", log(*parts_of(written(65_498)), SECOND), CLEAN[0]),
    ("a record of 4,008 bytes in two blocks", log(written(3_969)[:4_000], written(3_969)[4_000:]), CLEAN[0]),
    ("a record of 4,009 bytes in 4,007 and 2", log(written(3_970)[:4_007], written(3_970)[4_007:]), CLEAN[0]),
    ("a long record behind a short one in its first block", log(*parts_of(SECOND + LONG)), CLEAN[0]),
    ("a short record behind a long one in its last block", odd_part(2, content=PARTS[2] + THIRD), CLEAN[0]),
    ("a zero behind a long record in its last block", odd_part(2, content=PARTS[2] + b"\0"), CLEAN[0]),
    ("a last part that goes on in one more block", log(*PARTS[:2], PARTS[2][:1_000], PARTS[2][1_000:]), CLEAN[0]),
    ("a record that ends after its first part", log(SECOND, *PARTS[:1]), CLEAN[1]),
    ("a record that ends after its second part", log(SECOND, *PARTS[:2]), CLEAN[1]),
    ("a short record in the place of a last part", log(*PARTS[:2], SECOND), CLEAN[0]),
    ("a second record in the place of a last part", log(*PARTS[:2], *PARTS), CLEAN[0]),
    *(
        (f"a record of 9,039 bytes that says {length}", odd_field(0, numbers(length)[:4]), CLEAN[0])
        for length in [0, 22, 4_007, 4_008, 4_009, 8_016, 8_017, 9_038, 9_040, 12_024, 65_536, 65_537, 2**32 - 1]
    ),
    *((f"part {part} with a byte less", odd_part(part, content=PARTS[part][:-1]), CLEAN[0]) for part in range(3)),
    *(
        (f"part {part} with used {used}", odd_part(part, used=used), CLEAN[0])
        for part, least in enumerate([LOG_ROOM, LOG_ROOM, 1_023])
        for used in [0, least - 1, least + 1, 2**64 - 1]
    ),
    *(
        (f"part {part} with number {number}", odd_part(part, number=number), CLEAN[0])
        for part in range(3)
        for number in [part - 1, part + 1, 2**60]
        if number >= 0
    ),
    *((f"part {part} of chain 0", odd_part(part, chain=0), CLEAN[0]) for part in range(3)),
    *((f"part {part} of chain 2", odd_part(part, chain=2), CLEAN[0]) for part in range(3)),
    *((f"part {part} of guid 78", odd_part(part, guid=78), CLEAN[0]) for part in range(3)),
    *((f"part {part} of kind 5", odd_part(part, kind=DATA), CLEAN[0]) for part in range(3)),
    *(
        (f"part {part} names {address} as the next block", odd_part(part, follower=address), CLEAN[part // 2])
        for part in range(3)
        for address in [0, AREA - BLOCK, CHAIN_AT[part], CHAIN_AT[part + 1] + 1, CHAIN_AT[part + 2], 8 * MIB]
    ),
    *((f"part {part} is missing", other_block(part, lambda _: bytes(BLOCK)), CLEAN[0]) for part in range(3)),
    *((f"part {part} is torn", other_block(part, lambda one: bytes(512) + one[512:]), CLEAN[0]) for part in range(3)),
    *((f"part {part} of a wrong check", other_block(part, lambda one: one[:-1] + b"y"), CLEAN[0]) for part in range(3)),
    ("a long record with group 2^60 + 1", odd_field(4, numbers(LAST + 1)), CLEAN[0]),
    ("a long record with ordinal 2^60 + 1", odd_field(12, numbers(LAST + 1)), CLEAN[0]),
    ("a long record with no operation", odd_field(20, b"\0\0"), CLEAN[0]),
    ("a long record with an operation less than it says", odd_field(20, b"\2\0"), CLEAN[0]),
    ("a long record with an operation that none has", odd_field(22, b"\6"), CLEAN[0]),
    ("a long record of object 5,292", odd_field(23, numbers(OBJECTS)[:4]), CLEAN[0]),
    (
        "a long record past the longest object",
        lambda: odd_field(27, numbers(layout.MAX_LENGTH - 8_999))(),
        CLEAN[0],
    ),
    ("a long record whose write has a byte less", odd_field(35, numbers(8_999)[:4]), CLEAN[0]),
    ("a long record whose write has a byte more", odd_field(35, numbers(9_001)[:4]), CLEAN[0]),
    (
        "a long record with a name that begins with a digit",
        whole(record(10, 0, [write(9_000), ("n", NAMED, 0, b"4pond")])),
        CLEAN[0],
    ),
]

LONG_OF_SECOND, LONG_OF_THIRD = (parts_of(written(9_000, number=number)) for number in (2, 3))
FIRST_AGAIN = creates_and_removes("c")

# A record can't take place, which is told with the address of its first block.
REFUSED = [
    ("a long record of an object that isn't there", log(*LONG_OF_SECOND), f"damaged 6 {LOG_AT}"),
    ("a short record, and a long one of an object that isn't there", log(SECOND, *LONG_OF_THIRD), "damaged 6 4214784"),
    ("a long record, and one of an object that isn't there", log(*PARTS, *LONG_OF_SECOND), "damaged 6 4222976"),
    ("a long record, and a short one of an object that is there", log(*PARTS, FIRST_AGAIN), "damaged 6 4222976"),
    ("a last operation that can't take place", whole(creates_and_removes("dc" * 500 + "c")), f"damaged 6 {LOG_AT}"),
    ("the same in the synced group", whole(written(9_000, group=9, number=2)), CLEAN[0]),
    ("the same without its last part", log(*LONG_OF_SECOND[:2]), CLEAN[0]),
]

# The versions of uberblocks.
VERSIONED = [
    ("a pool of version 1", of_old_pool(), CLEAN[0]),
    ("a pool of version 1 with short records", of_old_pool(SECOND, THIRD), CLEAN[2]),
    ("a pool of version 1 with a record of 4,008 bytes", of_old_pool(written(3_969), SECOND), CLEAN[2]),
    ("a pool of version 1 with a long record", of_old_pool(*PARTS, SECOND), CLEAN[0]),
    ("a pool of version 1 with a long record between short ones", of_old_pool(SECOND, *PARTS, THIRD), CLEAN[1]),
    ("a pool of version 1 with a long record that can't take place", of_old_pool(*LONG_OF_SECOND), CLEAN[0]),
    ("version 1 alone in the active group", in_version(1), CLEAN[0]),
    ("version 1 in the first label", in_version(1, 2), CLEAN[0]),
    ("version 2 in the first label", in_version(2, 1), CLEAN[2]),
    ("a version that isn't known in the first label, and then version 1", in_version(3, 1), CLEAN[0]),
    *(
        (f"version {version}, which isn't known", in_version(version, contents=[SECOND]), "clean group 8 records 1")
        for version in [0, 3, 2**32 + 2, 2**64 - 1]
    ),
]

ROWS = RIGHT + ENDED + REFUSED + VERSIONED
