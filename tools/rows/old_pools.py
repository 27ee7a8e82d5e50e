"""Pools of version 1, and what an import of them shows.

Those of `POOLS` are what a program of that version wrote (`tools/tests/test_old_pools.py` has their sums), except the
last one, whose log it would have refused to write. Object 1 has a strip of bytes, which is the greatest length in that
version: its last record alone has a block.

Those of `FULL` have as few free blocks as such a program could leave. It reserved a block less for a write than is
reserved now. What is reserved now for such logs is more than they have, but an import needs far fewer blocks.
"""

from tools.model.layout import AREA, BLOCK, NAMED, STRIP
from tools.model.pool_bytes import config, log_block, record, uberblock
from tools.model.pool_image import Image
from tools.model.serial_pool import LEAST
from tools.rows.full_images import Full
from tools.rows.hostile_images import GUID, Tank
from tools.rows.hostile_levels import of_a_strip


def old_pool():
    """The pool after group 9 is synced, whose one transaction made object 1 and wrote to its end."""
    return of_a_strip(Tank(version=1))


def logged(*records):
    """The same with a log whose blocks have a record each, of a later group and these operations."""
    contents = [record(group, at, ops) for at, (group, *ops) in enumerate(records, 1)]
    return lambda: old_pool().log_blocks(*contents)


WRITE, CREATE, LENGTHEN = ("w", 1, STRIP - 6, b"wxyz"), ("c", 2, 0, b""), ("l", 2, STRIP, b"")
CUT, NAME, PAST = ("l", 1, 4_033, b""), ("n", NAMED, 0, b"pond"), ("w", 1, STRIP - 3, b"past")
ZEROS = bytes(STRIP - 6)

# What each pool has, what makes it, and what it mounts: the name, the records that are replayed, and the objects.
POOLS = [
    ("an object of a strip", old_pool, b"tank", 0, {1: ZEROS + b"\0\0abcd"}),
    (
        "a log that writes to its end, and makes an object as long",
        logged((10, WRITE), (10, CREATE, LENGTHEN)),
        b"tank",
        2,
        {1: ZEROS + b"wxyzcd", 2: bytes(STRIP)},
    ),
    ("a log that cuts it, and names the pool", logged((10, CUT), (10, NAME)), b"pond", 2, {1: bytes(4_033)}),
    ("a log that ends at a write past it", logged((10, WRITE), (10, PAST)), b"tank", 1, {1: ZEROS + b"wxyzcd"}),
]


# A creation and 91 writes: 366 blocks were reserved for them, where 457 are now. 383 are free. The program kept 16 of
# these back, and took one for the next log block.
NEW = [("c", 0, 0, b""), *[("w", 0, 0, b"abcd")] * 91]
# 17 writes: 68 blocks, where 85 are now. 85 are free.
MARKS = [("w", 0, 2 * at, b"!") for at in range(17)]


def new_pool():
    """A pool without an object, whose import took the first block for the log."""
    pool = Image(bytearray(LEAST))
    pool.put_configs(config(GUID, 8, LEAST, b"tank"))
    pool.put_uberblock(uberblock(4, GUID, version=1))
    pool.put_uberblock(uberblock(8, GUID, import_number=1, log_address=AREA, version=1))
    pool.put(AREA, log_block(GUID, 9, 0, 1, AREA + BLOCK, record(9, 0, NEW)))
    return pool


def full_pool():
    return Full(1, 85, MARKS)


def marked(objects):
    """The objects after the writes."""
    return {**objects, 0: b"!a" * 17 + objects[0][34:]}


FULL = [
    ("a log of all that had room in a new pool", new_pool, b"tank", 1, {0: b"abcd"}),
    ("a log of all that had room in a full pool", full_pool, b"tank", 1, marked(full_pool().objects)),
]
