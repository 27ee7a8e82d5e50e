"""Worked images of a hostile writer with each damage of a tree in each of its places, in both versions.

Object 1 has one record, the second one of a strip. In version 1 that is its only strip. In version 2 it is its second
one, and the object has a top. So the tree has one block of each kind. Each row makes one edit of a block or of its
pointer, with every other check made right, and has what `check` has to print. Those of `SEVERAL` have more damages than
one, with what `check --all` has to print.

Between two blocks of the tree there is room for one, so that a block may lie beside its place.
"""

from functools import partial
from typing import Callable, NamedTuple

from tools.model import layout
from tools.model.layout import (
    AREA,
    BLOCK,
    DATA,
    DIRECTORY,
    ENTRIES,
    INDIRECT,
    LABEL,
    POINTERS,
    RECORD,
    ROOT,
    STRIP,
    TOP,
    data_number,
    strip_number,
)
from tools.model.pool_bytes import NONE, Pointer, check_of, config, numbers, seal, uberblock
from tools.model.pool_image import Image
from tools.rows.hostile_images import GROUP, GUID, LOG_AT, SIZE

OBJECT = 1
PLACES = {DATA: 4_202_496, INDIRECT: 4_210_688, TOP: 4_218_880, DIRECTORY: 4_227_072, ROOT: 4_235_264}
NAMES = dict(zip(PLACES, ["the record", "the indirect block", "the top", "the directory", "the root"]))
CLEAN = f"clean group {GROUP} records 0"
VERSIONS = (1, 2)


def kinds(version):
    """The kinds of the blocks of a tree, from the record up to the root."""
    return [kind for kind in PLACES if kind != TOP or version == 2]


def same(found):
    return found


class Node(NamedTuple):
    """A block of the tree: its address and its fields, what is made of it, and what its pointer is made to be."""

    address: int
    kind: int
    number: int
    payload: bytes
    guid: int = GUID
    group: int = GROUP
    block: Callable = same
    pointer: Callable = same


class Lone(Image):
    """The pool of a version, in which object 1 has one record. The other fields are

    - the strip, the index of the record in it, the bytes of the record, and the length of the object;
    - for each kind of block what is made of its `Node`;
    - for each kind of block pointers besides, by their index. Those of a directory are entries.
    """

    def __init__(self, version, strip=None, index=1, data=b"wxyz", length=None, nodes=None, others=None):
        super().__init__(bytearray(SIZE))
        self.version, self.strip, self.index, self.data = version, version - 1 if strip is None else strip, index, data
        self.length = STRIP * self.strip + RECORD * index + len(data) if length is None else length
        self.nodes, self.others = nodes or {}, others or {}
        self.put_configs(config(GUID, 8, SIZE, b"tank"))
        for group in (4, 8):
            self.put_uberblock(uberblock(group, GUID, version=version))
        self.put_uberblock(uberblock(GROUP, GUID, self.write(), 1, LOG_AT, version=version))

    def write(self):
        """Writes the tree from the record up, and gives the pointer to its root."""
        pointer = None
        for kind in kinds(self.version):
            pointer = self.put_node(self.nodes.get(kind, same)(self.node(kind, pointer)))
        return pointer

    def node(self, kind, below):
        """The block of a kind over the pointer to the one below."""
        number = {
            DATA: data_number(OBJECT, POINTERS * self.strip + self.index),
            INDIRECT: strip_number(OBJECT, self.strip),
            TOP: OBJECT,
            DIRECTORY: 0,
            ROOT: 0,
        }[kind]
        return Node(PLACES[kind], kind, number, self.payload(kind, below))

    def payload(self, kind, below):
        if kind == DATA:
            return self.data
        size, count = (64, ENTRIES) if kind == DIRECTORY else (48, POINTERS)
        at = {INDIRECT: self.index, TOP: self.strip, DIRECTORY: OBJECT, ROOT: 0}[kind]
        own = entry(self.version, self.length, below) if kind == DIRECTORY else below.bytes()
        content = {at: own, **self.others.get(kind, {})}
        return b"".join(content.get(index, bytes(size)) for index in range(count))

    def put_node(self, node):
        """Writes a block, if its address is on the device, and gives its pointer."""
        block = node.block(seal(node.kind, node.guid, node.group, node.number, node.payload))
        if node.address < SIZE:
            self.put(node.address, block)
        return node.pointer(Pointer(node.address, node.group, check_of(block)))


def entry(present, length, pointer=NONE):
    return numbers(present, length) + pointer.bytes()


def flipped(content):
    """The same bytes with another last one."""
    return content[:-1] + bytes([content[-1] ^ 1])


def with_other_check(block):
    """The block with a check that isn't its own. Its pointer says the same."""
    return flipped(block[:64]) + block[64:]


def moved(address):
    return lambda node: node._replace(address=address)


def named(node, pointer):
    """The block has this pointer."""
    return node._replace(pointer=lambda _: pointer)


# A block that doesn't open by its pointer, or isn't where a block may be.
WAYS = [
    ("lies 512 bytes behind its place", lambda node: node._replace(address=node.address + 512)),
    ("lies before the first block", moved(AREA - BLOCK)),
    ("lies behind the last block", moved(SIZE - 2 * LABEL)),
    ("would lie past the device", moved(2**64 - BLOCK)),
    ("is of a group above the active one", lambda node: node._replace(group=GROUP + 1)),
    (
        "is of another group than its pointer says",
        lambda node: node._replace(pointer=lambda pointer: pointer._replace(birth=GROUP - 1)),
    ),
    (
        "has another check than its pointer says",
        lambda node: node._replace(pointer=lambda pointer: pointer._replace(check=flipped(pointer.check))),
    ),
    ("has a check that isn't its own", lambda node: node._replace(block=with_other_check)),
    ("is of another kind", lambda node: node._replace(kind=node.kind % 7 + 1)),
    ("is of another pool", lambda node: node._replace(guid=GUID + 1)),
    ("has another number", lambda node: node._replace(number=node.number + 1)),
]


def unopened():
    """Each block in each of these ways. The damage is of the kind of its place, at its pointer's address."""
    for version in VERSIONS:
        for kind in kinds(version):
            for way, change in WAYS:
                address = change(Node(PLACES[kind], kind, 0, b"")).address
                make = partial(Lone, version, nodes={kind: change})
                yield f"version {version}: {NAMES[kind]} {way}", make, f"damaged {kind} {address}"


# Pointers with address 0 and other bytes: the birth, and the last byte of the check.
ODD_NONES = [NONE._replace(birth=1), NONE._replace(check=flipped(NONE.check))]
# Where there is one besides the pointer to the block below. In a directory it is in an entry.
ODD_PLACES = {INDIRECT: 0, TOP: 0, DIRECTORY: ENTRIES - 1, ROOT: POINTERS - 1}


def odd_nones():
    """A pointer with address 0 that isn't none, in each block that has pointers, and in the uberblock."""
    for version in VERSIONS:
        for number, odd in enumerate(ODD_NONES):
            for kind in kinds(version)[1:]:
                content = entry(1, 4, odd) if kind == DIRECTORY else odd.bytes()
                make = partial(Lone, version, others={kind: {ODD_PLACES[kind]: content}})
                title = f"version {version}: {NAMES[kind]} has odd pointer {number} without an address"
                yield title, make, f"damaged {kind} {PLACES[kind]}"
            make = partial(Lone, version, nodes={ROOT: partial(named, pointer=odd)})
            yield f"version {version}: the uberblock has odd pointer {number} without an address", make, "damaged 2 0"


# Entries of an object without a block: present, length, and the versions in which it is one.
LAST_LENGTH = layout.MAX_LENGTH
LENGTHS = [
    *[(0, 0, VERSIONS), (0, 1, ()), (0, STRIP + 1, ())],
    *[(1, 0, VERSIONS), (1, STRIP, VERSIONS), (1, STRIP + 1, ()), (1, 2**64 - 1, ())],
    *[(2, 0, ()), (2, 4, ()), (2, STRIP, ()), (2, STRIP + 1, (2,)), (2, LAST_LENGTH, (2,)), (2, LAST_LENGTH + 1, ())],
    *[(3, STRIP, ()), (3, STRIP + 1, ()), (2**32 + 1, STRIP, ()), (2**64 - 1, LAST_LENGTH, ())],
]


def with_entry(version, content):
    return partial(Lone, version, others={DIRECTORY: {ENTRIES - 1: content}})


def entries():
    """The last entry of the directory has these numbers, or is absent with a pointer."""
    bad = f"damaged 3 {PLACES[DIRECTORY]}"
    for version in VERSIONS:
        for present, length, versions in LENGTHS:
            title = f"version {version}: an entry with present {present} and length {length}"
            yield title, with_entry(version, entry(present, length)), CLEAN if version in versions else bad
        absent = with_entry(version, entry(0, 0, Pointer(PLACES[INDIRECT], GROUP, bytes(32))))
        yield f"version {version}: an absent entry with a pointer", absent, bad
        last = with_entry(version, flipped(bytes(64)))
        yield f"version {version}: an absent entry whose last byte is 1", last, bad


def lengths():
    """Pointers up to the length of the object and past it, and bytes of the record past it."""
    past_top, past_strip, past_end = (f"damaged {kind} {PLACES[kind]}" for kind in (TOP, INDIRECT, DATA))
    for strip in (2, POINTERS - 1):
        for more, line in [(0, past_top), (1, CLEAN)]:
            make = partial(Lone, 2, strip=strip, index=0, data=b"", length=STRIP * strip + more)
            yield f"version 2: strip {strip}, with length {more} more than its begin", make, line
    for version in VERSIONS:
        first = STRIP * (version - 1)
        for index in (1, POINTERS - 1):
            for more, line in [(0, past_strip), (1, CLEAN)]:
                make = partial(Lone, version, index=index, data=b"", length=first + RECORD * index + more)
                yield f"version {version}: record {index}, with length {more} more than its begin", make, line
        for at, line in [(8, CLEAN), (9, past_end), (RECORD - 1, past_end)]:
            make = partial(Lone, version, data=bytes(at) + b"\1", length=first + RECORD + 9)
            yield f"version {version}: byte {at} of a record of nine bytes is 1", make, line


def empty():
    """Blocks with only none pointers, or without an entry."""
    for version in VERSIONS:
        for kind in kinds(version)[1:]:
            make = partial(Lone, version, nodes={kind: lambda node: node._replace(payload=b"")})
            yield f"version {version}: {NAMES[kind]} has nothing", make, CLEAN


ROWS = [*unopened(), *odd_nones(), *entries(), *lengths(), *empty()]


def bad(address):
    """A pointer to an address that is none of a block."""
    return Pointer(address, GROUP, bytes(32)).bytes()


def bad_entry(present, length, address):
    return numbers(present, length) + bad(address)


def torn(node):
    return node._replace(block=with_other_check)


# Records, strips and entries on both sides of those of the one record, and directories behind its own, by their index.
# Each is told by its address, which is none of a block.
RECORDS = {0: bad(101), 2: bad(102)}
OBJECTS = {0: bad_entry(1, 1, 104), 2: bad_entry(1, STRIP, 105)}
TALL_OBJECTS = {0: bad_entry(2, STRIP + 1, 106), 2: bad_entry(1, 1, 105)}
STRIPS = {0: bad(107), 2: bad(108)}
DIRECTORIES = {1: bad(109), POINTERS - 1: bad(110)}


def several(version, objects, length, nodes=None, others=None):
    """The pool with damages on both sides of each block of its tree, and of its record."""
    others = {INDIRECT: RECORDS, DIRECTORY: objects, ROOT: DIRECTORIES, **(others or {})}
    return Lone(version, length=length, nodes={DATA: torn, **(nodes or {})}, others=others)


def of_version_1(length=STRIP, **fields):
    return partial(several, 1, OBJECTS, length=length, **fields)


def of_version_2(length=3 * STRIP, others=None, **fields):
    return partial(several, 2, TALL_OBJECTS, length=length, others={TOP: STRIPS, **(others or {})}, **fields)


DAMAGED_RECORDS = ["damaged 5 101", f"damaged 5 {PLACES[DATA]}", "damaged 5 102"]
DAMAGED_STRIPS = ["damaged 4 107", *DAMAGED_RECORDS, "damaged 4 108"]
ENDS = ["damaged 3 109", "damaged 3 110"]
OWN = {kind: f"damaged {kind} {PLACES[kind]}" for kind in PLACES}

# What `check --all` prints of the images: the damages in the order of the walk, without those below a damaged block.
SEVERAL = [
    (
        "version 1: damages on both sides of each block",
        of_version_1(),
        ["damaged 4 104", *DAMAGED_RECORDS, "damaged 4 105", *ENDS],
    ),
    (
        "version 1: a record past the length hides those before it",
        of_version_1(length=2 * RECORD),
        ["damaged 4 104", OWN[INDIRECT], "damaged 4 105", *ENDS],
    ),
    (
        "version 1: an entry of two levels hides the objects of its directory",
        of_version_1(others={DIRECTORY: {**OBJECTS, 5: entry(2, STRIP + 1)}}),
        [OWN[DIRECTORY], *ENDS],
    ),
    (
        "version 2: damages on both sides of each block",
        of_version_2(),
        ["damaged 7 106", *DAMAGED_STRIPS, "damaged 4 105", *ENDS],
    ),
    (
        "version 2: a strip past the length hides those before it",
        of_version_2(length=2 * STRIP),
        ["damaged 7 106", OWN[TOP], "damaged 4 105", *ENDS],
    ),
    (
        "version 2: a torn indirect block hides its records alone",
        of_version_2(nodes={INDIRECT: torn}),
        ["damaged 7 106", "damaged 4 107", OWN[INDIRECT], "damaged 4 108", "damaged 4 105", *ENDS],
    ),
    (
        "version 2: an odd pointer without an address hides the directories",
        of_version_2(others={ROOT: {**DIRECTORIES, 2: ODD_NONES[0].bytes()}}),
        [OWN[ROOT]],
    ),
]
