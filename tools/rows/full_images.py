"""Images of nearly full pools of the least size, in both versions, and what an import of them says.

Whole objects take up the blocks, and a shorter one takes those that are left. A log of one block may have a record.
"""

from functools import partial

from tools.model.layout import AREA, BLOCK, DATA, DIRECTORY, INDIRECT, POINTERS, RECORD, ROOT, block_count, data_number
from tools.model.pool_bytes import Pointer, check_of, config, log_block, numbers, record, seal, uberblock
from tools.model.pool_image import Image
from tools.model.serial_pool import LEAST
from tools.rows.hostile_images import GROUP, GUID

BLOCKS = block_count(LEAST)


def content_of(number, count):
    """The bytes of an object of so many records."""
    return bytes([ord("a") + number]) * (RECORD * count)


def counts_of(blocks):
    """The records of objects that have so many blocks together, with an indirect block for each object."""
    counts = []
    while blocks:
        counts.append(min(POINTERS, blocks - 1))
        blocks -= counts[-1] + 1
    return counts


class Full(Image):
    """The pool of a version with so many free blocks. Its log has a record of these operations, or no block. `objects`
    has the bytes of its objects."""

    def __init__(self, version, free, ops=()):
        super().__init__(bytearray(LEAST))
        self.next, log = AREA, bool(ops)
        self.put_configs(config(GUID, 8, LEAST, b"tank"))
        for group in (4, 8):
            self.put_uberblock(uberblock(group, GUID, version=version))
        if log:
            self.put(self.take(), log_block(GUID, 10, 0, 1, AREA + BLOCK * (BLOCKS - free), record(10, 0, ops)))
        counts = counts_of(BLOCKS - free - log - 2)
        self.objects = {number: content_of(number, count) for number, count in enumerate(counts)}
        entries = b"".join(self.put_object(number, content) for number, content in self.objects.items())
        root = self.put_block(ROOT, 0, self.put_block(DIRECTORY, 0, entries).bytes())
        assert self.next == AREA + BLOCK * (BLOCKS - free)
        self.put_uberblock(uberblock(GROUP, GUID, root, 1, AREA, version=version))

    def take(self):
        """The lowest block that isn't taken."""
        self.next += BLOCK
        return self.next - BLOCK

    def put_block(self, kind, number, payload):
        block, address = seal(kind, GUID, GROUP, number, payload), self.take()
        self.put(address, block)
        return Pointer(address, GROUP, check_of(block))

    def put_object(self, number, content):
        """The entry of an object of one level, whose records and indirect block are written."""
        pointers = b""
        for at in range(len(content) // RECORD):
            part = content[RECORD * at : RECORD * (at + 1)]
            pointers += self.put_block(DATA, data_number(number, at), part).bytes()
        pointer = self.put_block(INDIRECT, number, pointers)
        return numbers(1, len(content)) + pointer.bytes()


# What is free, the operations of a record, and how an import is refused, if it is. It needs the blocks that it writes,
# here a record, its indirect block, the directory and the root, and one for its log. What these replace isn't free yet.
WRITE = [("w", 0, 0, b"!")]
ROOMS = [(5, WRITE, None), (4, WRITE, "refused 16 NoSpace"), (1, [], None), (0, [], "refused 16 NoSpace")]

# The title, what makes it, what `check` prints, and how an import is refused, if it is.
ROWS = [
    (
        f"version {version}: {free} free blocks and {len(ops)} records",
        partial(Full, version, free, ops),
        f"clean group {GROUP} records {len(ops)}",
        refused,
    )
    for version in (1, 2)
    for free, ops, refused in ROOMS
]
