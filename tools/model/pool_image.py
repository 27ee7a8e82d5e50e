"""What an image of a device mounts, with its objects' bytes, or why it mounts nothing.

`read_pool` and `mount` say it by the labels, the walk of the tree, the log chain and the records there. Only `hashlib`
is used, so nothing is taken from a program.
"""

import collections
import contextlib
import struct

from tools.model.charges import count_blocks
from tools.model.contents import apply, rename
from tools.model.layout import (
    AREA,
    ARRAY_AT,
    BLOCK,
    CONFIG_AT,
    DATA,
    DIRECTORY,
    ENTRIES,
    INDIRECT,
    LAST,
    LOG,
    LOG_ROOM,
    POINTERS,
    RECORD,
    ROOT,
    SLOT,
    SLOTS,
    STRIP,
    TOP,
    block_count,
    data_number,
    is_block_address,
    is_geometry,
    label_places,
    levels_of,
    slot_places,
    strip_number,
)
from tools.model.pool_bytes import (
    MAGIC,
    Pointer,
    Uberblock,
    check_of,
    long_length,
    longest,
    number_at,
    opens,
    read_config,
    read_log_payload,
    read_record,
    read_records,
)


class Damaged(Exception):
    """A block is not what the tree or the log says of it. `later` has the damages that a walk of the tree found after it."""

    def __init__(self, kind, address):
        super().__init__(kind, address)
        self.kind, self.address, self.later = kind, address, []


class NoPool(Exception):
    """There is no active uberblock, or no config for it."""


class BadGeometry(Exception):
    """No pool may have the size."""


# A block of a tree or a log chain: its kind, number and address, its own pointer, and the place of that pointer (the
# address of the block that holds it and the byte in it; None for the root pointer of the uberblock and for log blocks).
Node = collections.namedtuple("Node", "kind number address pointer holder at")

# What an image mounts: with how many blocks of the device, the nodes of its tree and its chain, the number of records
# that are replayed, the objects after them, and the number of free blocks that an import needs.
Mount = collections.namedtuple("Mount", "name uberblock blocks nodes records objects needed")


class Image:
    """The bytes of a device."""

    def __init__(self, content):
        self.content = content
        # The bytes of the whole sectors.
        self.size = len(content) - len(content) % 512

    def block(self, address):
        return bytes(self.content[address : address + BLOCK])

    def slot(self, place):
        return bytes(self.content[place : place + SLOT])

    def put(self, place, content):
        self.content[place : place + len(content)] = content

    def put_configs(self, block):
        """Writes a config into each label."""
        for label in label_places(self.size):
            self.put(label + CONFIG_AT, block)

    def put_uberblock(self, new):
        """Writes an uberblock into its slot of each label."""
        for place in slot_places(self.size, new.group):
            self.put(place, new.bytes())

    def age(self):
        """Gives each uberblock version 1, as an older program wrote it."""
        for label in label_places(self.size):
            for place in range(label + ARRAY_AT, label + ARRAY_AT + SLOT * SLOTS, SLOT):
                if self.content[place : place + 8] == MAGIC:
                    self.put(place, Uberblock.at(self.slot(place))._replace(version=1).bytes())

    def active(self):
        """The active uberblock."""
        found = []
        for label in label_places(self.size):
            for slot in range(SLOTS):
                at = label + ARRAY_AT + SLOT * slot
                if self.content[at : at + 8] == MAGIC:
                    read = Uberblock.read(self.slot(at))
                    if read and read.group % SLOTS == slot:
                        found.append(read)
        if not found:
            raise NoPool
        return max(found, key=lambda read: read.group)

    def configs(self):
        """What the configs of the four labels say, or None for one that isn't valid."""
        return [read_config(self.block(label + CONFIG_AT), self.size) for label in label_places(self.size)]

    def name(self, active):
        """The name in the config that is chosen."""
        fitting = [one for one in self.configs() if one and one.guid == active.guid and one.group <= active.group]
        if not fitting:
            raise NoPool
        return max(fitting, key=lambda one: one.group).name


# What the directory says of an object: its number, how many levels of indirect blocks it has, its length, and the
# pointer to its top or its only indirect block, with the place of that pointer.
Listed = collections.namedtuple("Listed", "number levels length pointer holder at")


class Walk:
    """The walk of an image's tree: its nodes and its objects, and of each the records and the strips that have a block.
    It goes on after a damage, without what lies below it, and raises the first one at its end.

    The tree is one of its uberblock's version: one of version 1 has one level of indirect blocks.
    """

    def __init__(self, image, active):
        self.image, self.active = image, active
        self.nodes, self.objects, self.records, self.strips, self.damages = [], {}, {}, {}, []
        with self.noting():
            self.walk_root(active.root)
        if self.damages:
            first, *first.later = self.damages
            raise first

    @contextlib.contextmanager
    def noting(self):
        """Notes the damage of a block, below which the walk doesn't go."""
        try:
            yield
        except Damaged as damage:
            self.damages.append(damage)

    def walk_root(self, pointer):
        if pointer.address == 0 and not pointer.is_none():
            raise Damaged(ROOT, 0)
        root = self.visit(ROOT, 0, pointer, None, None)
        for index, directory in self.pointers(root, ROOT, pointer.address):
            with self.noting():
                self.walk_directory(index, directory, pointer.address)

    def visit(self, kind, number, pointer, holder, at):
        """The payload of a block by its pointer, or None for a hole."""
        if pointer.is_none():
            return None
        block = self.image.block(pointer.address)
        is_open = is_block_address(self.image.size, pointer.address) and pointer.birth <= self.active.group
        is_open = is_open and number_at(block, 16) == pointer.birth and check_of(block) == pointer.check
        if not is_open or not opens(block, kind, self.active.guid, number):
            raise Damaged(kind, pointer.address)
        self.nodes.append(Node(kind, number, pointer.address, pointer, holder, at))
        return block[64:]

    def pointers(self, payload, kind, address):
        """The pointers of a root, a top or an indirect block that are not none, each with its index."""
        if payload is None:
            return []
        found = [(index, Pointer.at(payload, 48 * index)) for index in range(POINTERS)]
        found = [(index, pointer) for index, pointer in found if not pointer.is_none()]
        if any(pointer.address == 0 for _, pointer in found):
            raise Damaged(kind, address)
        return found

    def pointers_within(self, length, size, payload, kind, address):
        """Those of a block whose pointers are each to so many bytes of an object. None of them is to bytes from this
        length on."""
        found = self.pointers(payload, kind, address)
        if any(size * index >= length for index, _ in found):
            raise Damaged(kind, address)
        return found

    def walk_directory(self, index, pointer, root):
        payload = self.visit(DIRECTORY, index, pointer, root, 64 + 48 * index)
        entries = []
        for at in range(0, 64 * ENTRIES, 64):
            (present, length), below = struct.unpack_from("<QQ", payload, at), Pointer.at(payload, at + 16)
            if not any(payload[at : at + 64]):
                continue
            is_odd = below.address == 0 and not below.is_none()
            if length > longest(self.active.version) or present != levels_of(length) or is_odd:
                raise Damaged(DIRECTORY, pointer.address)
            number = ENTRIES * index + at // 64
            entries.append(Listed(number, present, length, below, pointer.address, 64 + at + 16))
        for listed in entries:
            with self.noting():
                self.walk_object(listed)

    def walk_object(self, listed):
        """The blocks of an object: its only indirect block, or its top and its indirect blocks, rising."""
        number, levels, length, pointer, holder, at = listed
        content, records, strips = bytearray(length), set(), set()
        if levels == 1:
            self.walk_strip(number, 0, pointer, (holder, at), content, records)
            strips = set() if pointer.is_none() else {0}
        else:
            top = self.visit(TOP, number, pointer, holder, at)
            for strip, below in self.pointers_within(length, STRIP, top, TOP, pointer.address):
                strips.add(strip)
                with self.noting():
                    self.walk_strip(number, strip, below, (pointer.address, 64 + 48 * strip), content, records)
        self.objects[number], self.records[number], self.strips[number] = bytes(content), records, strips

    def walk_strip(self, number, strip, pointer, place, content, records):
        """An indirect block of an object and its records, whose bytes go into the content of the object."""
        payload, left = self.visit(INDIRECT, strip_number(number, strip), pointer, *place), len(content) - STRIP * strip
        for index, below in self.pointers_within(left, RECORD, payload, INDIRECT, pointer.address):
            with self.noting():
                self.walk_record(number, POINTERS * strip + index, below, (pointer.address, 64 + 48 * index), content)
            records.add(POINTERS * strip + index)

    def walk_record(self, number, record, pointer, place, content):
        """A record of an object, whose bytes go into its content."""
        data, begin = self.visit(DATA, data_number(number, record), pointer, *place), RECORD * record
        end = min(len(content), begin + RECORD)
        if any(data[end - begin :]):
            raise Damaged(DATA, pointer.address)
        content[begin:end] = data[: end - begin]


# A piece of a log chain: the nodes of its blocks, its entries, and the address of the block after it. It is a block of
# whole records, or the blocks of one long record.
Piece = collections.namedtuple("Piece", "nodes entries follower")


def log_node(number, address):
    return Node(LOG, number, address, None, None, None)


def read_log_block(image, active, number, address):
    """What the log block with this number says, or None if there is none at this address."""
    block = image.block(address) if is_block_address(image.size, address) else None
    if block is None or not opens(block, LOG, active.guid, number):
        return None
    read = read_log_payload(block[64:])
    return read if read and read.chain == active.import_number else None


def read_piece(image, active, number, address):
    """The piece of the log chain that begins with this block, or None."""
    first = read_log_block(image, active, number, address)
    if first is None:
        return None
    entries = read_records(first.used, active.version)
    if entries is not None:
        return Piece([log_node(number, address)], entries, first.follower)
    length = long_length(first.used) if active.version > 1 else None
    return read_parts(image, active, number, address, length) if length else None


def read_parts(image, active, number, address, length):
    """The piece of a long record of this length whose first part lies here, or None. Each part but the last fills its
    block, and the last one is what is left."""
    nodes, content = [], b""
    while len(content) < length:
        part = read_log_block(image, active, number + len(nodes), address)
        if part is None or len(part.used) != min(length - len(content), LOG_ROOM):
            return None
        nodes.append(log_node(number + len(nodes), address))
        content, address = content + part.used, part.follower
    entry = read_record(content[4:])
    return Piece(nodes, [entry], address) if entry else None


def read_chain(image, active):
    """The pieces of the log chain."""
    number, address, pieces = active.log_number, active.log_address, []
    while piece := read_piece(image, active, number, address):
        pieces.append(piece)
        number, address = number + len(piece.nodes), piece.follower
    return pieces


# What is read of an image: its active uberblock, the name of its pool, the walk of its tree, and its log chain.
Found = collections.namedtuple("Found", "image uberblock name walk chain")


def read_pool(image):
    """What is read of an image. It raises `BadGeometry`, `NoPool` or `Damaged`, in this order."""
    if not is_geometry(image.size):
        raise BadGeometry
    active = image.active()
    name = image.name(active)
    return Found(image, active, name, Walk(image, active), read_chain(image, active))


def mount(found):
    """What a pool that was read mounts. It raises `Damaged` for the first record that can't take place."""
    active, walk, chain = found.uberblock, found.walk, found.chain
    above = [(piece.nodes[0], entry) for piece in chain for entry in piece.entries if entry.group > active.group]
    objects, entries = walk.objects, [entry for _, entry in above]
    for first, entry in above:
        objects = apply(objects, entry.ops)
        if objects is None:
            raise Damaged(LOG, first.address)
    name = rename(found.name, entries)
    needed, _ = count_blocks(walk.objects, walk.records, entries, walk.strips)
    nodes = walk.nodes + [node for piece in chain for node in piece.nodes]
    return Mount(name, active, block_count(found.image.size), nodes, len(above), objects, needed + 1)


def free_places(mount):
    """The blocks that neither the tree nor the log of a pool has, rising. An import takes them for those that its records
    change, and the next one for its log."""
    used = {node.address for node in mount.nodes}
    return [place for place in range(AREA, AREA + BLOCK * mount.blocks, BLOCK) if place not in used]


# What the program prints


def show_lines(mount):
    """What `show` prints of a pool."""
    active, objects = mount.uberblock, sorted(mount.objects.items())
    lines = [f"name {mount.name.decode()}", f"guid {active.guid}", f"group {active.group}"]
    lines += [f"import {active.import_number}", f"blocks {mount.blocks} used {len(mount.nodes)}"]
    lines += [f"records {mount.records}", f"objects {len(objects)}"]
    return lines + [f"{number} {len(content)}" for number, content in objects]


def import_line(mount):
    """What a script's `import` prints of a pool that an inspection mounts."""
    active = mount.uberblock
    if active.group + 5 > LAST or active.import_number + 1 > LAST:
        return "refused 22 TooMany"
    if mount.needed > mount.blocks - len(mount.nodes):
        return "refused 16 NoSpace"
    return f"synced {active.group + 4} open {active.group + 5} records {mount.records}"
