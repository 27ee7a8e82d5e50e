"""The operations of a transaction, and the limits of their arguments."""

from __future__ import annotations

import operator
import re
import struct
from typing import Iterable, Union

from .errors import TOO_LARGE, Refused, bad_argument

MAX_LENGTH = 28_449_792
"""The most bytes of an object."""

OBJECT_COUNT = 5_292
"""How many objects a pool may have. Their numbers go from 0 to one less."""

MAX_RECORD = 65_536
"""The most bytes of a transaction's log record: 22, and for each operation what it says."""

MAX_WRITE = 65_497
"""The most bytes of one write."""

MAX_NAME = 64
"""The most bytes of a pool's name."""

RECORD_HEAD = struct.Struct("<IQQH")

Bytes = Union[bytes, bytearray, memoryview]


class Operation(bytes):
    """One operation of a transaction. `create`, `remove`, `write`, `set_length` and `set_name` make it."""

    __slots__ = ()


def fitted(what: str, value: int, most: int, least: int = 0) -> int:
    """The value, if it is within its limits. Else it is refused by `BadArgument`."""
    number = operator.index(value)
    if not least <= number <= most:
        raise bad_argument(f"{what} {number}: {least} to {most}")
    return number


def _object(number: int) -> int:
    return fitted("object", number, OBJECT_COUNT - 1)


def create(number: int) -> Operation:
    """Makes the object with this number, which is empty then. It adds 5 bytes to the transaction's record.

    The transaction is refused `Exists` if the object is there.
    """
    return Operation(struct.pack("<BI", 1, _object(number)))


def remove(number: int) -> Operation:
    """Removes an object. It adds 5 bytes to the transaction's record.

    The transaction is refused `NoObject` if the object isn't there.
    """
    return Operation(struct.pack("<BI", 2, _object(number)))


def write(number: int, offset: int, content: Bytes) -> Operation:
    """Writes bytes, at least one, into an object from an offset on. The object gets longer if they end behind it, and
    has zeros from its end to the offset. It adds 17 and these bytes to the transaction's record.

    The transaction is refused `NoObject` if the object isn't there.
    """
    content = bytes(memoryview(content))
    place = fitted("offset", offset, MAX_LENGTH - 1)
    if not content:
        raise bad_argument("a write of 0 bytes: at least 1")
    if place + len(content) > MAX_LENGTH:
        raise bad_argument(f"the bytes end at {place + len(content)}: an object has at most {MAX_LENGTH}")
    return Operation(struct.pack("<BIQI", 3, _object(number), place, len(content)) + content)


def set_length(number: int, length: int) -> Operation:
    """Cuts an object to a length, or lengthens it by zeros. It adds 13 bytes to the transaction's record.

    The transaction is refused `NoObject` if the object isn't there.
    """
    return Operation(struct.pack("<BIQ", 4, _object(number), fitted("length", length, MAX_LENGTH)))


def set_name(name: Union[str, bytes]) -> Operation:
    """Names the pool: 1 to 64 bytes, first a letter, then letters, digits, `-`, `_` and `.`. It adds 5 and these bytes
    to the transaction's record."""
    content = checked_name(name)
    return Operation(struct.pack("<BI", 5, len(content)) + content)


def checked_name(name: Union[str, bytes]) -> bytes:
    """The bytes of a pool's name, if it is one. Else it is refused by `BadArgument`."""
    content = name.encode() if isinstance(name, str) else bytes(name)
    if len(content) > MAX_NAME or not re.fullmatch(rb"[A-Za-z][A-Za-z0-9_.-]*", content):
        raise bad_argument(f"name {name!r}: 1 to {MAX_NAME} bytes, first a letter, then letters, digits, - _ .")
    return content


def record(ops: Iterable[Operation]) -> bytes:
    """The operations of a transaction as a log record. One that is too long is refused here, as the pool would refuse
    it. A record that the pool can't read must not be sent: the frame would be refused, with the calls of others."""
    ops = list(ops)
    if not all(isinstance(op, Operation) for op in ops):
        raise TypeError("a transaction is a list of operations, which create, remove, write .. make")
    if not ops:
        raise bad_argument("a transaction of 0 operations: at least 1")
    length = RECORD_HEAD.size + sum(map(len, ops))
    if length > MAX_RECORD:
        raise Refused(TOO_LARGE, cause=f"it would have {length}")
    return RECORD_HEAD.pack(length, 0, 0, len(ops)) + b"".join(ops)
