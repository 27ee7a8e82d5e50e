"""Frames of requests, and what the frames of the process say (`docs/FRAMES.md`)."""

from __future__ import annotations

import os
import struct
from typing import Any, Callable, Dict, Generic, List, NamedTuple, Optional, Sequence, Tuple, TypeVar, Union

from .errors import Error, Refused, RefusedFrame, unusable

T = TypeVar("T")

HEAD = struct.Struct("<IHHI")
VERSION, MAX_FRAME = 1, 4_194_304
REQUESTS, ANSWERS, REFUSED, OPENED, UNOPENED, HOLDING, READING_ON = range(1, 8)
NOT_DURABLE = 11
# What is kept of an answering frame for each answer, besides the bytes or the objects that it may have.
LEAST_ROOM, LISTED_ROOM = 80, 12

_REQUEST = struct.Struct("<QB")
_BYTE = struct.Struct("<B")
_U32 = struct.Struct("<I")
_U64 = struct.Struct("<Q")
_PAIR = struct.Struct("<QQ")
_REFUSAL = struct.Struct("<BQQ")
_STATUS = struct.Struct("<7Q")
_LISTED = struct.Struct("<IQ")
_OPENED = struct.Struct("<3Q")
_UNOPENED = struct.Struct("<QQI")


class Receipt(NamedTuple):
    """Names a transaction that took place. `Pool.durable` tells whether a power failure may lose it."""

    ordinal: int
    """Its number among the commits since the pool was opened."""

    group: int
    """The group that it is in. It is durable at the latest once that group is synced."""


class Status(NamedTuple):
    """The groups of a pool, and what is charged and free. A group that isn't there is 0."""

    synced: int
    """The last group that was synced."""

    syncing: int
    """The group that is being synced."""

    middle: int
    """The group that takes no more transactions, and waits until its own have ended or until it can be synced."""

    open: int
    """The group that takes transactions."""

    dirty: int
    """The bytes that unsynced transactions are charged."""

    free: int
    """How many blocks nothing uses."""

    available: int
    """How many of these blocks transactions may still use."""


class Opened(NamedTuple):
    """What the process said of the pool when it had opened it."""

    guid: int
    """The number that distinguishes the pool from others."""

    group: int
    """The group that was synced."""

    records: int
    """How many records of the log were replayed: transactions that a crash had left without a sync."""


class Malformed(Exception):
    """The bytes are no frame that answers."""


class Cursor:
    """Bytes that are read from the front."""

    __slots__ = ("content", "at")

    def __init__(self, content: bytes) -> None:
        self.content, self.at = content, 0

    def numbers(self, form: struct.Struct) -> Tuple[int, ...]:
        if len(self.content) - self.at < form.size:
            raise Malformed
        self.at += form.size
        return form.unpack_from(self.content, self.at - form.size)

    def number(self, form: struct.Struct) -> int:
        return self.numbers(form)[0]

    def string(self) -> bytes:
        """Bytes behind their count."""
        count = self.number(_U32)
        if len(self.content) - self.at < count:
            raise Malformed
        self.at += count
        return self.content[self.at - count : self.at]

    def end(self) -> None:
        if self.at < len(self.content):
            raise Malformed


# The calls.


class Kind(Generic[T]):
    """A kind of call: its number, and how an answer to it is read."""

    __slots__ = ("number", "read")

    def __init__(self, number: int, read: Callable[[Cursor], T]) -> None:
        self.number, self.read = number, read


def _receipt(cursor: Cursor) -> Receipt:
    return Receipt(*cursor.numbers(_PAIR))


def _refused(cursor: Cursor, receipt: Optional[Receipt] = None) -> Refused:
    number, kind, address = cursor.numbers(_REFUSAL)
    if not number:
        raise Malformed
    return Refused(number, kind, address, receipt)


def _objects(cursor: Cursor) -> Dict[int, int]:
    rows = [cursor.numbers(_LISTED) for _ in range(cursor.number(_U32))]
    return {number: length for number, length in rows}


def _status(cursor: Cursor) -> Status:
    return Status(*cursor.numbers(_STATUS))


TRANSACT: Kind[Receipt] = Kind(1, _receipt)
TRANSACT_DURABLY: Kind[Receipt] = Kind(2, _receipt)
READ: Kind[bytes] = Kind(3, Cursor.string)
LENGTH: Kind[int] = Kind(4, lambda cursor: cursor.number(_U64))
OBJECTS: Kind[Dict[int, int]] = Kind(5, _objects)
STATUS: Kind[Status] = Kind(6, _status)
DURABLE: Kind[bool] = Kind(7, lambda cursor: cursor.number(_BYTE) == 1)
FLUSH: Kind[None] = Kind(8, lambda cursor: None)
SYNC: Kind[int] = Kind(9, lambda cursor: cursor.number(_U64))
NAME: Kind[bytes] = Kind(10, Cursor.string)


def requests_frame(first: int, requests: Sequence[Tuple[Kind[Any], bytes]], kind: int = REQUESTS) -> bytes:
    """The frame of requests, which have rising numbers from the first one on. Its kind says whether it is followed."""
    items = b"".join(_REQUEST.pack(at, call.number) + needs for at, (call, needs) in enumerate(requests, first))
    return HEAD.pack(HEAD.size + len(items), VERSION, kind, len(requests)) + items


class Frame(NamedTuple):
    """A frame of the process: its kind, its number, and what follows its head."""

    kind: int
    number: int
    content: bytes


def read_answers(first: int, kinds: Sequence[Kind[Any]], frame: Frame) -> List[Any]:
    """What came of each request of a frame: an `Error`, or what its kind reads."""
    if frame.kind == REFUSED and not frame.content:
        return [RefusedFrame(frame.number) for _ in kinds]
    if frame.kind != ANSWERS or frame.number != len(kinds):
        raise Malformed
    cursor = Cursor(frame.content)
    outcomes = [_outcome(number, kind, cursor) for number, kind in enumerate(kinds, first)]
    cursor.end()
    return outcomes


def _outcome(number: int, kind: Kind[T], cursor: Cursor) -> Union[T, Error]:
    answered, came = cursor.numbers(_REQUEST)
    if answered != number:
        raise Malformed
    if came == 0:
        return _refused(cursor)
    if came == NOT_DURABLE and kind is TRANSACT_DURABLY:
        return _refused(cursor, _receipt(cursor))  # the receipt stands first
    if came != kind.number:
        raise Malformed
    return kind.read(cursor)


def read_opening(frame: Frame, path: Union[str, bytes]) -> Opened:
    """What an opening says of the pool in a file. One that isn't open raises its error."""
    cursor = Cursor(frame.content)
    if frame.kind == OPENED:
        opened = Opened(*cursor.numbers(_OPENED))
        cursor.end()
        return opened
    if frame.kind != UNOPENED:
        raise Malformed
    kind, address, error = cursor.numbers(_UNOPENED)
    cause = cursor.string().decode(errors="replace")
    cursor.end()
    if frame.number:
        raise Refused(frame.number, kind, address, cause=cause)
    raise unusable(error, cause or os.strerror(error), path)
