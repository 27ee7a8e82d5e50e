"""The bytes of a pool's blocks, labels and log records, written and read (docs/FORMATS.md, 2 to 8)."""

import collections
import hashlib
import re
import struct

from tools.model import layout
from tools.model.contents import Entry
from tools.model.layout import (
    CONFIG,
    LAST,
    LOG,
    LOG_RECORD_MAX,
    LOG_ROOM,
    NAMED,
    OBJECTS,
    PAYLOAD,
    SLOT,
    STRIP,
    VERSION,
)

MAGIC = bytes.fromhex("0cb1ba0000000000")


def sha(content):
    return hashlib.sha256(content).digest()


def numbers(*values):
    """Numbers of eight bytes each."""
    return struct.pack(f"<{len(values)}Q", *values)


def number_at(content, place):
    return struct.unpack_from("<Q", content, place)[0]


class Pointer(collections.namedtuple("Pointer", "address birth check")):
    """The place, birth group and check of a block."""

    @classmethod
    def at(cls, content, place):
        address, birth = struct.unpack_from("<QQ", content, place)
        return cls(address, birth, bytes(content[place + 16 : place + 48]))

    def bytes(self):
        return numbers(self.address, self.birth) + self.check

    def is_none(self):
        return self == NONE


NONE = Pointer(0, 0, bytes(32))


# Blocks


def seal(kind, guid, group, number, payload):
    """A block with its check made right. A shorter payload is filled with zeros."""
    head = numbers(kind, guid, group, number)
    payload = payload.ljust(PAYLOAD, b"\0")
    assert len(payload) == PAYLOAD
    return head + sha(head + bytes(32) + payload) + payload


def sealed_again(block):
    """The same block with its check made right."""
    return block[:32] + sha(block[:32] + bytes(32) + block[64:]) + block[64:]


def check_of(block):
    return bytes(block[32:64])


def opens(block, kind, guid, number):
    """Whether a block has these fields and its check is right."""
    is_expected = (number_at(block, 0), number_at(block, 8), number_at(block, 24)) == (kind, guid, number)
    return is_expected and check_of(block) == sha(block[:32] + bytes(32) + block[64:])


# Labels


def is_name(name):
    return len(name) <= 64 and re.fullmatch(rb"[A-Za-z][A-Za-z0-9_.-]*", name) is not None


def config(guid, group, size, name):
    """The config block of a label."""
    return seal(CONFIG, guid, group, 0, numbers(1, size, len(name)) + name)


# What a valid config says.
Config = collections.namedtuple("Config", "guid group name")


def read_config(block, size):
    """The config that a block holds for a device of this size, or None."""
    guid, group, length = number_at(block, 8), number_at(block, 16), number_at(block, 64 + 16)
    if not opens(block, CONFIG, guid, 0) or number_at(block, 64) != 1 or number_at(block, 64 + 8) != size:
        return None
    name = bytes(block[88 : 88 + min(length, 65)])
    if length > 64 or not is_name(name) or any(block[88 + length :]):
        return None
    return Config(guid, group, name)


class Uberblock(
    collections.namedtuple("Uberblock", "group guid moment root import_number log_address log_number version")
):
    """What an uberblock says."""

    def bytes(self):
        head = MAGIC + numbers(self.version, self.group, self.guid, self.moment) + self.root.bytes()
        head += numbers(self.import_number, self.log_address, self.log_number)
        head = head.ljust(SLOT - 32, b"\0")
        return head + sha(head)

    @classmethod
    def at(cls, slot):
        """The fields of a slot, whatever its check."""
        version, group, guid, moment = struct.unpack_from("<4Q", slot, 8)
        return cls(group, guid, moment, Pointer.at(slot, 40), *struct.unpack_from("<3Q", slot, 88), version)

    @classmethod
    def read(cls, slot):
        """The uberblock that a slot holds, or None."""
        if slot[:8] != MAGIC or any(slot[112:992]) or slot[992:] != sha(slot[:992]):
            return None
        read = cls.at(slot)
        is_within = 4 <= read.group <= LAST and read.import_number <= LAST and read.log_number <= LAST
        return read if 1 <= read.version <= VERSION and is_within else None


def uberblock(group, guid, root=NONE, import_number=0, log_address=0, log_number=0, moment=0, version=VERSION):
    return Uberblock(group, guid, moment, root, import_number, log_address, log_number, version)


# The log


def op_bytes(op):
    kind, number, place, content = op
    if kind == "n":
        return b"\5" + struct.pack("<I", len(content)) + content
    tag, target = bytes(["_cdwl".index(kind)]), struct.pack("<I", number)
    if kind == "w":
        return tag + target + struct.pack("<QI", place, len(content)) + content
    return tag + target + (numbers(place) if kind == "l" else b"")


def record(group, ordinal, ops, length=None):
    """A log record. Its length may be another one than its own."""
    body = numbers(group, ordinal) + struct.pack("<H", len(ops)) + b"".join(map(op_bytes, ops))
    return struct.pack("<I", 4 + len(body) if length is None else length) + body


def log_block(guid, group, number, chain, follower, content, used=None, kind=LOG):
    """A log block with these bytes of records. Its used length may be another one than theirs, and its kind another
    one."""
    used = len(content) if used is None else used
    return seal(kind, guid, group, number, numbers(chain, follower, used) + content)


def parts_of(content):
    """The parts of a record, one for each log block: each fills its block but the last."""
    return [content[at : at + LOG_ROOM] for at in range(0, len(content), LOG_ROOM)]


class Reader:
    """Bytes that are read from left to right. A read past their end raises `IndexError`."""

    def __init__(self, content):
        self.content, self.at = content, 0

    def take(self, count):
        if count > len(self.content) - self.at:
            raise IndexError
        self.at += count
        return self.content[self.at - count : self.at]

    def number(self, size):
        return int.from_bytes(self.take(size), "little")

    def is_done(self):
        return self.at == len(self.content)


def longest(version):
    """The greatest length of an object in a tree or a log of this version."""
    return STRIP if version == 1 else layout.MAX_LENGTH


def read_op(reader, longest):
    """The next operation within its limits, or None. No object is longer than this."""
    tag = reader.number(1)
    if tag == 5:
        name = reader.take(reader.number(4))
        return ("n", NAMED, 0, name) if is_name(name) else None
    if not 1 <= tag <= 4:
        return None
    kind, number, place, content = "_cdwl"[tag], reader.number(4), 0, b""
    if kind in "wl":
        place = reader.number(8)
    if kind == "w":
        content = reader.take(reader.number(4))
    is_long = place + len(content) > longest or (kind == "w" and not content)
    return None if number >= OBJECTS or is_long else (kind, number, place, content)


def read_record(content, version=VERSION):
    """The record that these bytes are in a log of this version, as an entry, or None."""
    reader = Reader(content)
    try:
        group, ordinal, count = reader.number(8), reader.number(8), reader.number(2)
        ops = [read_op(reader, longest(version)) for _ in range(count)]
    except IndexError:
        return None
    if group > LAST or ordinal > LAST or not ops or None in ops or not reader.is_done():
        return None
    return Entry(group, ops)


# What the payload of a log block says: its chain number, the address of the next block, and its used bytes.
LogPayload = collections.namedtuple("LogPayload", "chain follower used")


def read_log_payload(payload):
    """What the payload of a log block says, or None for a payload of another form."""
    chain, follower, used = struct.unpack_from("<3Q", payload)
    if not 1 <= used <= LOG_ROOM or any(payload[24 + used :]):
        return None
    return LogPayload(chain, follower, bytes(payload[24 : 24 + used]))


def length_field(content):
    """The length that a record says of itself."""
    return int.from_bytes(content[:4], "little")


def read_records(content, version=VERSION):
    """The records that these bytes are in a log of this version, one after another, as entries, or None."""
    entries, at = [], 0
    while at < len(content):
        length = length_field(content[at:])
        if not 22 <= length <= len(content) - at:
            return None
        entries.append(read_record(content[at + 4 : at + length], version))
        if entries[-1] is None:
            return None
        at += length
    return entries


def long_length(used):
    """The length of the long record whose first part the used bytes of a log block are, or None."""
    length = length_field(used)
    return length if len(used) == LOG_ROOM < length <= LOG_RECORD_MAX else None
