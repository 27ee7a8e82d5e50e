"""Edits by chance of a pool's image, as a hostile writer makes them.

An edit changes a byte, a field, a pointer, an entry, a record, a whole block, an uberblock or a config, or it writes a
long record. Then the checks from there up to the uberblock are made right, so that the change itself is judged and not
a check that fails.
"""

from tools.model import layout
from tools.model.layout import (
    AREA,
    ARRAY_AT,
    BLOCK,
    CONFIG_AT,
    DATA,
    DIRECTORY,
    ENTRIES,
    INDIRECT,
    LABEL,
    LAST,
    LOG,
    LOG_RECORD_MAX,
    LOG_ROOM,
    NAMED,
    OBJECTS,
    POINTERS,
    RECORD,
    ROOT,
    SLOT,
    SLOTS,
    STRIP,
    TOP,
    block_count,
    label_places,
    levels_of,
    record_of,
    slot_places,
)
from tools.model.pool_bytes import (
    NONE,
    Pointer,
    Uberblock,
    check_of,
    config,
    log_block,
    number_at,
    numbers,
    parts_of,
    record,
    seal,
    sealed_again,
    sha,
)
from tools.model.pool_image import Image

# Where the fields of a log block lie in it: the chain number, the next address, the used length, the records.
CHAIN_AT, NEXT_AT, USED_AT, RECORDS_AT = 64, 72, 80, 88
LIMITS = [0, 1, 2, 22, LOG_ROOM, LOG_ROOM + 1, RECORD - 1, RECORD, RECORD + 1, OBJECTS, 2**32]
# The blocks of a tree, and those that name other ones.
TREE = (ROOT, DIRECTORY, TOP, INDIRECT, DATA)
HOLDERS = TREE[:-1]
# Lengths of long records, of which the last one is no record's.
LONG = [LOG_ROOM + 1, 2 * LOG_ROOM, 2 * LOG_ROOM + 1, LOG_RECORD_MAX, LOG_RECORD_MAX + 1]


def some_lengths():
    """Lengths about those at which the levels of an object change, and about the greatest one."""
    return [limit + more for limit in (STRIP, layout.MAX_LENGTH) for more in (-1, 0, 1)]


def replaced(content, at, new):
    """The content with new bytes at a place."""
    return content[:at] + new + content[at + len(new) :]


class Edits:
    """Edits of a pool's image. `mount` is what the image mounts before them."""

    def __init__(self, chance, base, mount):
        self.chance, self.mount, self.active = chance, mount, mount.uberblock
        self.image, self.size = Image(bytearray(base)), len(base)
        self.nodes = {node.address: node for node in mount.nodes}
        # Whether the checks above an edited block are made right.
        self.seals = chance.random() < 0.95
        self.names = []

    def edit(self):
        """One edit, of a kind that the pool has blocks for."""
        kinds = [self.uberblock, self.slot, self.age, self.config, self.configs, self.tear]
        if self.some(ROOT):
            kinds += [self.pointer, self.entry, self.byte, self.head, self.data, self.swap] * 2
            kinds += [self.move, self.raise_object, self.lower_object]
        if self.some(LOG):
            kinds += [self.log, self.records, self.records, self.records, self.long_record, self.long_record]
        kind = self.chance.choice(kinds)
        self.names.append(kind.__name__)
        kind()

    def some(self, *kinds):
        """The blocks of these kinds."""
        return [node for node in self.mount.nodes if node.kind in kinds]

    # Numbers and bytes

    def address(self):
        """The address of a block of the pool, of a free one, or of none."""
        blocks = block_count(self.size)
        last = AREA + BLOCK * (blocks - 1)
        odd = [AREA, last, last + BLOCK, AREA - BLOCK, 0, CONFIG_AT, self.size, 2**63, 2**64 - BLOCK]
        used = [node.address for node in self.mount.nodes]
        address = self.chance.choice([*used, *used, *odd, AREA + BLOCK * self.chance.randrange(blocks)])
        return (address + self.chance.choice([0] * 8 + [1, 512, -1])) % 2**64

    def number(self, old):
        """A number in place of this one."""
        group = self.active.group
        near = [old + 1, old - 1, old ^ (1 << self.chance.randrange(64))]
        groups = [group - 1, group, group + 1, 3, 4, LAST - 5, LAST - 4, LAST - 1, LAST, LAST + 1, 2**64 - 1]
        limits = [*LIMITS, *some_lengths()]
        others = [self.chance.choice(groups), self.chance.choice(limits), self.address(), self.chance.getrandbits(64)]
        return self.chance.choice(near + others) % 2**64

    def set_number(self, content, at):
        return replaced(content, at, numbers(self.number(number_at(content, at))))

    def set_byte(self, content, at):
        flipped = content[at] ^ 1 << self.chance.randrange(8)
        return replaced(content, at, bytes([self.chance.choice([0, 1, 2, 255, flipped])]))

    # What is written, with its checks

    def put_block(self, address, block):
        """Writes a block of the tree or the log, and makes its check and those above it right."""
        if not self.seals:
            self.image.put(address, block)
            return
        block = sealed_again(block)
        self.image.put(address, block)
        node = self.nodes[address]
        if node.kind != LOG:
            # Mostly the pointer follows the group of the block.
            birth = number_at(block, 16) if self.chance.random() < 0.7 else node.pointer.birth
            self.put_pointer(node, check_of(block), birth)

    def put_pointer(self, node, check, birth):
        """Writes the check and the birth of a block of the tree where its pointer lies, and makes the checks above it
        right."""
        if node.holder is None:
            self.put_uberblock(lambda read: read._replace(root=read.root._replace(check=check, birth=birth)))
        else:
            self.put_block(node.holder, replaced(self.image.block(node.holder), node.at + 8, numbers(birth) + check))

    def put_uberblock(self, change, share=1):
        """Changes the uberblock of the active group, in each label with this chance, and makes its check right."""
        for place in slot_places(self.size, self.active.group):
            if self.chance.random() < share:
                self.image.put(place, change(Uberblock.at(self.image.slot(place))).bytes())

    # The tree

    def pointer(self):
        """A field of a pointer in a block of the tree, or of one that was none."""
        node = self.chance.choice(self.some(*HOLDERS))
        block = self.image.block(node.address)
        places = range(64, 64 + 48 * POINTERS, 48) if node.kind != DIRECTORY else range(80, 64 + 64 * ENTRIES, 64)
        held = [at for at in places if any(block[at : at + 48])]
        at = self.chance.choice(held if held and self.chance.random() < 0.8 else places)
        kind = self.chance.choice(["address", "address", "birth", "check", "none", "no address", "another"])
        if kind == "address":
            block = replaced(block, at, numbers(self.address()))
        elif kind == "birth":
            block = self.set_number(block, at + 8)
        elif kind == "check":
            block = self.set_byte(block, at + 16 + self.chance.randrange(32))
        elif kind == "none":
            block = replaced(block, at, NONE.bytes())
        elif kind == "no address":
            block = replaced(block, at, numbers(0))
        else:
            other = self.chance.choice(self.some(*TREE))
            block = replaced(block, at, other.pointer.bytes())
        self.put_block(node.address, block)

    def entry(self):
        """How many levels an entry has, its length, both, or all of it."""
        node, at, present = self.some_entry()
        block = self.image.block(node.address)
        kind = self.chance.choice(["levels", "length", "length", "both", "absent", "another"])
        if kind == "levels":
            levels = self.chance.choice([0, 1, 2, 3, self.number(number_at(block, at))])
            block = replaced(block, at, numbers(levels))
        elif kind in ("length", "both"):
            length = self.some_length(number_at(block, at + 8))
            block = replaced(block, at + 8, numbers(length))
            block = replaced(block, at, numbers(levels_of(length))) if kind == "both" else block
        elif kind == "absent":
            block = replaced(block, at, bytes(64))
        else:
            other = self.chance.choice(present or [at])
            block = replaced(block, at, block[other : other + 64])
        self.put_block(node.address, block)

    def some_entry(self):
        """A directory, where an entry of it lies, mostly one that is present, and where those lie."""
        node = self.chance.choice(self.some(DIRECTORY))
        block, places = self.image.block(node.address), range(64, 64 + 64 * ENTRIES, 64)
        present = [at for at in places if any(block[at : at + 64])]
        return node, self.chance.choice(present if present and self.chance.random() < 0.8 else places), present

    def raise_object(self):
        """A top above what an entry names, which is mostly the object's first strip, and an entry of two levels."""
        node, at, _ = self.some_entry()
        block, strip = self.image.block(node.address), self.chance.choice([0, 0, 0, 0, 1, POINTERS - 1])
        payload = bytes(48 * strip) + block[at + 16 : at + 64]
        top = seal(TOP, self.active.guid, self.active.group, ENTRIES * node.number + at // 64 - 1, payload)
        place, length = AREA + BLOCK * self.some_block(), self.chance.choice([STRIP + 1, *some_lengths()])
        self.image.put(place, top)
        pointer = Pointer(place, self.active.group, check_of(top))
        self.put_block(node.address, replaced(block, at, numbers(2, length) + pointer.bytes()))

    def lower_object(self):
        """An entry of one level that names a strip of an object of two, mostly the first one."""
        if not self.some(TOP):
            return
        top, strip = self.chance.choice(self.some(TOP)), self.chance.choice([0, 0, 0, 1])
        at, length = 64 + 48 * strip, self.chance.choice([STRIP, STRIP, STRIP - 1, RECORD, 0])
        entry = numbers(1, length) + self.image.block(top.address)[at : at + 48]
        self.put_block(top.holder, replaced(self.image.block(top.holder), top.at - 16, entry))

    def some_length(self, old):
        """A length in place of this one."""
        least = [0, 1, old + 1, abs(old - 1), self.chance.randrange(RECORD)]
        return self.chance.choice([*least, *some_lengths(), self.chance.randrange(layout.MAX_LENGTH)]) % 2**64

    def byte(self):
        """Any byte of a block of the tree."""
        node = self.chance.choice(self.some(*TREE))
        self.put_block(node.address, self.set_byte(self.image.block(node.address), self.chance.randrange(BLOCK)))

    def head(self):
        """The kind, guid, group or number of a block."""
        node = self.chance.choice(self.mount.nodes)
        block, at = self.image.block(node.address), self.chance.choice([0, 8, 16, 16, 24])
        is_kind = at == 0 and self.chance.random() < 0.7
        new = replaced(block, 0, numbers(self.chance.randrange(9))) if is_kind else self.set_number(block, at)
        self.put_block(node.address, new)

    def data(self):
        """A byte of a record, often about the end of its object."""
        node = self.chance.choice(self.some(DATA) or self.mount.nodes)
        number, index = record_of(node.number)
        end = min(max(0, len(self.mount.objects.get(number, b"")) - RECORD * index), RECORD)
        at = self.chance.choice([self.chance.randrange(RECORD), min(end, RECORD - 1), max(end - 1, 0), RECORD - 1])
        self.put_block(node.address, self.set_byte(self.image.block(node.address), 64 + at))

    def swap(self):
        """A block at the place of another one, and mostly that one at its place."""
        one, other = self.chance.choice(self.mount.nodes), self.chance.choice(self.mount.nodes)
        first, second = self.image.block(one.address), self.image.block(other.address)
        self.put_block(one.address, second)
        if self.chance.random() < 0.5:
            self.put_block(other.address, first)

    def move(self):
        """A block at another address, which may be the place of no block, and the pointer to it."""
        node, address = self.chance.choice(self.mount.nodes), self.address()
        block = self.image.block(node.address)
        if address <= self.size - BLOCK:
            self.image.put(address, block)
        before = [one for one in self.some(LOG) if one.number == node.number - 1]
        if node.kind == LOG and before:
            self.put_block(before[0].address, replaced(self.image.block(before[0].address), NEXT_AT, numbers(address)))
        elif node.kind == LOG:
            self.put_uberblock(lambda read: read._replace(log_address=address))
        elif node.holder is None:
            self.put_uberblock(lambda read: read._replace(root=read.root._replace(address=address)))
        else:
            self.put_block(node.holder, replaced(self.image.block(node.holder), node.at, numbers(address)))

    def tear(self):
        """A sector of a block, an uberblock or a config."""
        places = [node.address for node in self.mount.nodes] + slot_places(self.size, self.active.group)
        places += [label + CONFIG_AT for label in label_places(self.size)]
        self.image.put(self.chance.choice(places), bytes([self.chance.randrange(256)]) * 512)

    # The labels

    def resize(self):
        """Another number of bytes, as the last edit."""
        self.names.append("resize")
        size = self.size + self.chance.choice([-self.size, -LABEL, -512, -1, 1, 511, 512, LABEL, 2 * LABEL])
        self.image = Image(self.image.content[:size].ljust(size, b"\0"))

    def some_root(self):
        """A root pointer in place of the active one."""
        root = self.active.root
        odd = [root._replace(address=0), root._replace(address=self.address()), NONE, NONE._replace(check=root.check)]
        odd += [root._replace(birth=self.number(root.birth))]
        return self.chance.choice(odd + [node.pointer for node in self.some(*TREE)])

    def uberblock(self):
        """A field of the active uberblock, in all labels or in some."""
        fields = ["root", "root", "group", "log_address", "log_number", "import_number", "guid", "version", "moment"]
        field, group = self.chance.choice(fields), self.active.group
        if field == "root":
            new = self.some_root()
        elif field == "log_address":
            new = self.address()
        elif field == "group" and self.chance.random() < 0.5:
            # A group of the same slot.
            new = group + SLOTS * self.chance.choice([1, 2, (LAST - group) // SLOTS])
        elif field in ("import_number", "log_number") and self.chance.random() < 0.3:
            new = LAST
        elif field == "version" and self.chance.random() < 0.5:
            new = 1
        else:
            new = self.number(getattr(self.active, field))
        self.put_uberblock(lambda read: read._replace(**{field: new}), self.chance.choice([1, 1, 0.5]))

    def age(self):
        """Each uberblock has version 1, as that of an older program."""
        self.image.age()

    def slot(self):
        """A byte of an uberblock, with or without its check, or an uberblock in any slot."""
        place = self.chance.choice(slot_places(self.size, self.active.group))
        slot = self.image.slot(place)
        if self.chance.random() < 0.3:
            read = Uberblock.at(slot)
            group = self.number(read.group)
            index = self.chance.choice([group % SLOTS, self.chance.randrange(SLOTS)])
            label = self.chance.choice(label_places(self.size))
            self.image.put(label + ARRAY_AT + SLOT * index, read._replace(group=group).bytes())
            return
        slot = self.set_byte(slot, self.chance.randrange(SLOT))
        is_sealed = self.chance.random() < 0.7
        self.image.put(place, slot[:992] + sha(slot[:992]) if is_sealed else slot)

    def config(self):
        """A field or a byte of the configs, in all labels or in some."""
        fields, name = [8, 16, 24, 64, 72, 80], range(88, 160)
        at = self.chance.choice([*fields, *fields, 88, 91, 92, self.chance.choice(name), self.chance.randrange(BLOCK)])
        new = numbers(self.number(self.active.group)) if at in fields else bytes([self.chance.choice(b"\0-.4Zz~")])
        share = self.chance.choice([1, 0.5])
        for label in label_places(self.size):
            block = replaced(self.image.block(label + CONFIG_AT), at, new)
            if self.chance.random() < share:
                self.image.put(label + CONFIG_AT, sealed_again(block) if self.chance.random() < 0.9 else block)

    def configs(self):
        """Whole configs in some labels: another name, mostly of the group or one before."""
        for label in label_places(self.size):
            if self.chance.random() < 0.6:
                group = self.active.group + self.chance.choice([-9, -2, -1, 0, 0, 1])
                name = self.chance.choice([b"pond", b"lake", b"a" * 64])
                self.image.put(label + CONFIG_AT, config(self.active.guid, group, self.size, name))

    # The log

    def log(self):
        """The chain number, the next address, the used length, or any byte of a log block."""
        node = self.chance.choice(self.some(LOG))
        block, used = self.image.block(node.address), number_at(self.image.block(node.address), USED_AT)
        at = self.chance.choice([CHAIN_AT, NEXT_AT, NEXT_AT, USED_AT, USED_AT, None])
        if at == CHAIN_AT:
            block = self.set_number(block, at)
        elif at == NEXT_AT:
            block = replaced(block, at, numbers(self.address()))
        elif at == USED_AT:
            new = self.chance.choice([0, used - 1, used + 1, used + 22, LOG_ROOM - 1, LOG_ROOM, LOG_ROOM + 1, RECORD])
            block = replaced(block, at, numbers(new % 2**64))
        else:
            block = self.set_byte(block, self.chance.randrange(CHAIN_AT, RECORDS_AT + 200))
        self.put_block(node.address, block)

    def records(self):
        """A byte of the records in a log block, or new records in place of them or after them."""
        node = self.chance.choice(self.some(LOG))
        block = self.image.block(node.address)
        content = block[RECORDS_AT : RECORDS_AT + min(number_at(block, USED_AT), LOG_ROOM)]
        if content and self.chance.random() < 0.3:
            # Often one of the first fields, as the length of a long record.
            end = self.chance.choice([len(content), min(len(content), 24)])
            content = self.set_byte(content, self.chance.randrange(end))
        else:
            kept = content if self.chance.random() < 0.5 else b""
            content = (kept + b"".join(self.some_record() for _ in range(self.chance.choice([1, 1, 2, 3]))))[:LOG_ROOM]
        block = block[:USED_AT] + numbers(len(content)) + content
        self.put_block(node.address, block.ljust(BLOCK, b"\0"))

    def long_record(self):
        """A long record that begins in a log block. Its other parts lie in the blocks of the chain behind that one, and
        then in any blocks."""
        chain = sorted(self.some(LOG), key=lambda node: node.number)
        at = self.chance.randrange(len(chain))
        contents = parts_of(self.some_record(self.long_ops()))
        places = [node.address for node in chain[at : at + len(contents) + 1]]
        places += [AREA + BLOCK * self.some_block() for _ in range(len(contents) + 1 - len(places))]
        missing = self.chance.randrange(len(contents)) if self.chance.random() < 0.1 else None
        for part, content in enumerate(contents):
            if part != missing:
                self.image.put(places[part], self.some_part(chain[at].number + part, places[part + 1], content))

    def some_block(self):
        """The index of a block, mostly one that the pool doesn't have."""
        used = {(node.address - AREA) // BLOCK for node in self.mount.nodes}
        found = self.chance.randrange(block_count(self.size))
        return found if found not in used or self.chance.random() < 0.05 else self.some_block()

    def some_part(self, number, follower, content):
        """A log block with a part of a record. Sometimes one of its fields is odd."""
        said = {"guid": self.active.guid, "group": self.active.group, "number": number}
        said.update(chain=self.active.import_number, follower=follower, content=content)
        if self.chance.random() < 0.05:
            odd = self.chance.choice([*said, "used"])
            said[odd] = self.odd_content(content) if odd == "content" else self.number(said.get(odd, len(content)))
        return log_block(**said)

    def odd_content(self, content):
        """The bytes of a part with a byte less or another one, or with a zero or a record behind them."""
        other = self.set_byte(content, self.chance.randrange(len(content)))
        odd = [content[:-1], other, content + b"\0", content + record(self.active.group + 1, 0, [self.some_op()])]
        return self.chance.choice(odd)[:LOG_ROOM]

    def long_ops(self):
        """The operations of a long record: one write, or many lengths of an object."""
        number = self.chance.choice([*self.mount.objects, *self.mount.objects, 0, 7])
        if self.chance.random() < 0.2:
            lengths = [self.chance.choice([0, 3, RECORD, 9_000]) for _ in range(self.chance.choice([308, 700, 2_000]))]
            return [("l", number, length, b"") for length in lengths]
        length = self.chance.choice([*LONG, *[self.chance.randrange(LOG_ROOM + 1, 20_000)] * 7])
        return [("w", number, self.chance.choice([0, 1, RECORD, 12_000]), b"y" * (length - 39))]

    def some_record(self, ops=None):
        """A record, mostly of a group above the active one; sometimes one of its fields is odd."""
        group = self.active.group + self.chance.choice([0, 1, 1, 2, 3])
        some = record(group, self.chance.randrange(9), ops or self.some_ops())
        odd = self.chance.choice([0, 1, 4, 12, 20, len(some) - 1])
        return self.set_byte(some, odd) if self.chance.random() < 0.1 else some

    def some_ops(self):
        """One to three operations; or none; or a byte in each of many records, for which blocks may lack."""
        if self.mount.objects and self.chance.random() < 0.1:
            number = self.chance.choice(sorted(self.mount.objects))
            return [("w", number, RECORD * at, b"x") for at in range(self.chance.choice([5, 40, 60, POINTERS]))]
        count = self.chance.choice([1, 1, 1, 2, 3])
        return [self.some_op() for _ in range(count * (self.chance.random() < 0.97))]

    def some_op(self):
        """An operation, mostly one that may take place."""
        number = self.chance.choice([*self.mount.objects, 0, 1, 2, 7, 62, self.chance.choice([OBJECTS - 1, OBJECTS])])
        kind = self.chance.choice("cccddwwwwwwlllln")
        if kind == "n":
            names = [b"tank", b"pond", b"a", b"a" * 64, b"a" * 65, b"4tank", b""]
            return (kind, NAMED, 0, self.chance.choice(names))
        if kind == "l":
            return (kind, number, self.chance.choice([0, 3, RECORD, 9_000, *some_lengths()]), b"")
        if kind == "w":
            content = self.chance.choice([b"a", b"bc", b"defgh"]) * self.chance.choice([1, 1, 20, 300])
            ends = [end - len(content) for end in some_lengths()]
            return (kind, number, self.chance.choice([0, 1, 4_030, RECORD, 12_000, STRIP, *ends]), content)
        return (kind, number, 0, b"")
