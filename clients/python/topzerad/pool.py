"""The pool that a process has."""

from __future__ import annotations

import contextlib
import struct
import threading
from types import TracebackType
from typing import Any, ContextManager, Dict, Iterator, Iterable, List, Optional, Sequence, Type, TypeVar, Union, cast

from .connection import LONGEST_WAIT, Hub, Path
from .errors import EXISTS, NO_OBJECT, Broken, Error, Forked, Refused, bad_argument
from .frames import (
    DURABLE,
    FLUSH,
    HOLDING,
    LEAST_ROOM,
    LENGTH,
    LISTED_ROOM,
    NAME,
    OBJECTS,
    READ,
    READING_ON,
    REQUESTS,
    STATUS,
    SYNC,
    TRANSACT,
    TRANSACT_DURABLY,
    Kind,
    Malformed,
    Opened,
    Receipt,
    Status,
    read_answers,
    requests_frame,
)
from .name_table import NameTable, object_name
from .operations import MAX_LENGTH, MAX_WRITE, OBJECT_COUNT, Bytes, Operation, fitted, record, write
from .process import GREATEST, Process, option_words
from .turns import Call, Turns

T = TypeVar("T")

PIECE = 1_048_576
"""The most bytes that one request reads. A longer read is made in pieces."""

# A long write is made in pieces that end where a record of the object does, so that no record is written twice.
_RECORD = 4_032
_LONG_PIECE = MAX_WRITE // _RECORD * _RECORD
_NUMBER = 2**32 - 1


class _Read(Call[bytes]):
    """The read of a range, which asks for one piece after the other until one is short."""

    __slots__ = ("_number", "_low", "_high", "_pieces")

    def __init__(self, number: int, low: int, high: int) -> None:
        super().__init__(READ)
        if low < high and high > MAX_LENGTH:
            low = high - 1  # so that the pool refuses the range, however short the object is
        self._number, self._low, self._high = number, low, high
        self._pieces: List[bytes] = []
        self._ask_piece()

    def _ask_piece(self) -> None:
        end = min(self._high, self._low + PIECE)
        self.needs = struct.pack("<IQQ", self._number, self._low, end)
        self.room = LEAST_ROOM + max(end - self._low, 0)

    @property
    def goes_on(self) -> bool:
        return self._low + PIECE < self._high

    def take(self, outcome: Union[bytes, Error]) -> bool:
        if isinstance(outcome, Error):
            return super().take(outcome)
        self._pieces.append(outcome)
        if not self.goes_on or len(outcome) < PIECE:
            return super().take(b"".join(self._pieces))
        self._low += PIECE
        self._ask_piece()
        return False


class Pool:
    """A pool that is open. Use it in a `with`, or `close` it. Any thread may make any call.

    `program` is `ztxg`, and `path` the pool's file. A process `PROGRAM serve FILE` has the pool until it is closed, and
    no other process may use the file meanwhile. Or `socket` is the path of a hub, `ztxg-hub`, which several programs
    share: then there is no program, and `timeout` is the only option. The options are those of `ztxg serve`:

    - `dirty`: the most bytes that unsynced transactions may be charged, the program's default if not given.
    - `cache`: the most blocks of 4,096 bytes that stay in memory, 1 to 262,144.
    - `moment`: a time in seconds, which the pool stores.
    - `wait`: for how many seconds, up to 86,400, it tries again while another process has the file.

    `timeout` is how many seconds, up to 86,400, the process may take for an answer. There is no limit if it isn't
    given. A call whose answer doesn't come in time raises `TimedOut`, and each later one `Broken`. An open may take
    `wait` seconds besides.

    A signal's handler must not make a call while its thread makes one: that is refused. An exception that a handler
    raises within a call breaks the connection: each later call raises `Broken`.

    Raises `Refused` if the program refuses to open the pool, `FileUnusable` if the file or the socket can't be used or
    the program not be started, `NoOpening` if the program ends without a word of the pool, and `TimedOut`.
    """

    opened: Opened
    """What the process said of the pool when it had opened it."""

    def __init__(
        self,
        program: Optional[Path] = None,
        path: Optional[Path] = None,
        *,
        socket: Optional[Path] = None,
        dirty: Optional[int] = None,
        cache: Optional[int] = None,
        moment: Optional[int] = None,
        wait: Optional[int] = None,
        timeout: Optional[float] = None,
    ) -> None:
        options = [*option_words(dirty=dirty, cache=cache, moment=moment), *option_words(LONGEST_WAIT, wait=wait)]
        if socket is not None and (program is not None or path is not None or options):
            raise bad_argument("with a socket there is no program and no file, and the timeout is the only option")
        self._next = 0  # the number of the next request
        self._turns = Turns(self._ask)
        self._closing = threading.RLock()
        self._naming = threading.RLock()  # one thread at a time reads the table of names and changes it
        self._holds = False  # whether no call of another program may come before the next frame
        self._is_closed = False
        if socket is not None:
            self._server: Union[Hub, Process] = Hub(socket, timeout)
        elif program is not None and path is not None:
            self._server = Process(program, path, options, timeout)
        else:
            raise TypeError("a pool is opened by a program and a path, or by a socket")
        self.opened = self._server.open(wait or 0)

    def __enter__(self) -> Pool:
        return self

    def __exit__(
        self, kind: Optional[Type[BaseException]], error: Optional[BaseException], _: Optional[TracebackType]
    ) -> None:
        try:
            self.close()
        except Error as other:
            if error is None:
                raise
            if hasattr(error, "add_note"):  # Python 3.11
                error.add_note(f"closing the pool failed, too: {other}")

    def close(self) -> None:
        """Ends the process once it has synced the pool and answered the calls of other threads.

        Raises `Ended` if the process ended otherwise, with its status and what it printed. After the timeout it is
        killed, and `TimedOut` is raised. In the child of a fork the parent's pool stays open. A hub goes on: what was
        committed is made durable, as by `flush`, and the connection is ended.
        """
        if self._server.is_forked:
            self._server.leave()
            return
        with self._closing:
            try:
                if self._server.is_shared and not self._is_closed:
                    self.flush()
            finally:
                self._is_closed = True
                self._turns.stop(Broken("the pool is closed"))
                self._server.end()

    @property
    def pid(self) -> Optional[int]:
        """The number of the process that was started for the pool. There is none if a hub has it."""
        return self._server.pid

    # Transactions

    def transact(self, ops: Iterable[Operation]) -> Receipt:
        """Commits operations as one transaction: all of them take place, or none. A power failure may lose it, until a
        `flush`, a `sync` or a later durable transaction.

        A transaction has a record of at most 65,536 bytes (`TooLarge`) and at most 256 operations (`TooMany`). All of
        it is charged at most the dirty limit (`Throttled`), and a small write is charged 20,480 bytes.
        """
        return self._one(Call(TRANSACT, record(ops)))

    def transact_durably(self, ops: Iterable[Operation]) -> Receipt:
        """Commits operations as `transact` does, and returns once no power failure loses them.

        If it raises `Refused` with a `receipt`, the transaction took place, but a crash may lose it.
        """
        return self._one(Call(TRANSACT_DURABLY, record(ops)))

    def transact_many(self, transactions: Iterable[Iterable[Operation]]) -> List[Union[Receipt, Refused]]:
        """Commits several transactions in their order, each by itself, in few frames. It returns what came of each: a
        receipt, or the refusal. A power failure may lose them as those of `transact`.

        One that is too long raises before any of them is sent. If the process ends, some may have taken place.
        """
        return self._many(TRANSACT, transactions)

    def transact_many_durably(self, transactions: Iterable[Iterable[Operation]]) -> List[Union[Receipt, Refused]]:
        """Commits several transactions as `transact_many` does, and returns once no power failure loses them. Those of
        one frame share a flush."""
        return self._many(TRANSACT_DURABLY, transactions)

    def write_long(self, number: int, offset: int, content: Bytes) -> None:
        """Writes bytes of any number into an object that is there, from an offset on, and returns once no power failure
        loses them.

        They are written in order by several transactions, so another thread or a crash may see the first ones alone.
        A `Refused` says in `committed` how many bytes were committed before.
        """
        view = memoryview(bytes(memoryview(content)))
        at = 0
        fitted("offset", offset, MAX_LENGTH)
        fitted("the end of the bytes", offset + len(view), MAX_LENGTH)
        try:
            while at < len(view):
                count = _LONG_PIECE - (offset + at) % _RECORD
                self.transact([write(number, offset + at, view[at : at + count])])
                at = min(at + count, len(view))
            self.flush()
        except Refused as refused:
            refused.committed = at
            raise

    # What the pool has

    def read(self, number: int, low: int = 0, high: int = MAX_LENGTH) -> bytes:
        """The bytes of an object from `low` up to `high` that lie below its length, at one moment. While more than
        1 MiB are read, the calls of other threads wait."""
        low, high = fitted("low", low, GREATEST), fitted("high", high, GREATEST)
        return self._one(_Read(fitted("object", number, _NUMBER), low, high))

    def length(self, number: int) -> int:
        """The length of an object."""
        return self._one(Call(LENGTH, struct.pack("<I", fitted("object", number, _NUMBER))))

    def objects(self, first: int = 0, past: int = OBJECT_COUNT) -> Dict[int, int]:
        """The lengths of the objects that are there from one number on, below another, by their numbers."""
        first, past = fitted("first", first, _NUMBER), fitted("past", past, _NUMBER)
        room = LISTED_ROOM * min(max(past - first, 0), OBJECT_COUNT)
        return self._one(Call(OBJECTS, struct.pack("<II", first, past), room))

    def status(self) -> Status:
        """The groups, and what is charged and free."""
        return self._one(Call(STATUS))

    def durable(self, receipt: Receipt) -> bool:
        """Whether no power failure loses this transaction."""
        ordinal, group = receipt
        needs = struct.pack("<QQ", fitted("ordinal", ordinal, GREATEST), fitted("group", group, GREATEST))
        return self._one(Call(DURABLE, needs))

    def name(self) -> bytes:
        """The pool's name."""
        return self._one(Call(NAME))

    # Objects by name

    def put(self, name: Union[str, bytes], content: Bytes) -> int:
        """Gives the object of a name these bytes alone, and returns its number once no power failure loses them. The
        object is made if no object has the name: it takes the lowest number from 1 on that is free.

        Names stand in object 0 (`docs/FORMATS.md`, "Names of objects"). A name has 1 to 254 bytes of UTF-8, without
        control characters and `/`. The name and the first 64,512 bytes are committed by one transaction, and what is
        left by further ones. A `Refused` says in `committed` how many bytes were committed before, if some were.
        """
        name, view = object_name(name), memoryview(bytes(memoryview(content)))
        fitted("the end of the bytes", len(view), MAX_LENGTH)
        with self._names_lock():
            first = view[:_LONG_PIECE]
            with self._turn():
                number = self._start(name, first)
            try:
                self.write_long(number, len(first), view[len(first) :])
            except Refused as refused:
                refused.committed = len(first) + (refused.committed or 0)
                raise
        return number

    def get(self, name: Union[str, bytes]) -> bytes:
        """The bytes of the object of a name."""
        name = object_name(name)
        with self._names_lock(), self._turn():
            return self.read(self._name_table().find(name))

    def remove(self, name: Union[str, bytes]) -> None:
        """Removes the object of a name, and the name, by one transaction. It returns once no power failure undoes
        it."""
        name = object_name(name)
        with self._names_lock(), self._turn():
            self.transact_durably(self._name_table().end(name, self.objects()))

    def names(self) -> Dict[str, int]:
        """The numbers of the objects that have a name, by their names."""
        with self._names_lock(), self._turn():
            return {name.decode(): number for name, number in self._name_table().names.items()}

    def _names_lock(self) -> ContextManager[Any]:
        # In a child another thread of the parent may have had it at the fork.
        self._test_fork()
        return self._naming

    @contextlib.contextmanager
    def _turn(self) -> Iterator[None]:
        """A hub lets no call of another program in between those within."""
        if not self._server.is_shared:
            yield
            return
        self._holds = True
        try:
            yield
        finally:
            self._holds = False
            with contextlib.suppress(Error):
                self.status()  # a frame that doesn't hold the turn

    def _name_table(self) -> NameTable:
        try:
            return NameTable(self.read(0))
        except Refused as refused:
            if refused.number != NO_OBJECT:
                raise
            return NameTable(b"")

    def _start(self, name: bytes, first: Bytes) -> int:
        """Commits the first piece of a put, and returns the object's number. If another thread took the number by a
        transaction of its own meanwhile, it takes the next one."""
        while True:
            objects = self.objects()
            number, ops = self._name_table().start(name, objects)
            try:
                self.transact([*ops, write(number, 0, first)] if first else ops)
                return number
            except Refused as refused:
                if refused.number != EXISTS or self.objects() == objects:
                    raise

    # What makes it durable

    def flush(self) -> None:
        """Makes durable what was committed so far, by the intent log."""
        self._one(Call(FLUSH))

    def sync(self) -> int:
        """Writes what was committed so far to its place, and returns the group that was synced."""
        return self._one(Call(SYNC))

    # Calls

    def _one(self, call: Call[T]) -> T:
        self._make([call])
        if isinstance(call.outcome, Error):
            raise call.outcome
        return call.outcome

    def _many(self, kind: Kind[Receipt], transactions: Iterable[Iterable[Operation]]) -> List[Union[Receipt, Refused]]:
        calls = [Call(kind, record(ops)) for ops in transactions]
        if calls:
            self._make(calls)
        outcomes = [call.outcome for call in calls]
        for outcome in outcomes:
            if isinstance(outcome, Error) and not isinstance(outcome, Refused):
                raise outcome
        return cast("List[Union[Receipt, Refused]]", outcomes)

    def _make(self, calls: Sequence[Call[Any]]) -> None:
        self._test_fork()
        self._turns.make(calls)

    def _test_fork(self) -> None:
        if self._server.is_forked:
            raise Forked("the pool was opened before a fork, by the parent")

    def _ask(self, calls: List[Call[Any]]) -> List[Any]:
        """Makes the calls of one frame. The thread that leads calls it."""
        first, self._next = self._next, self._next + len(calls)
        kind = REQUESTS
        if self._server.is_shared:
            kind = HOLDING if self._holds else READING_ON if calls[-1].goes_on else REQUESTS
        try:
            frame = self._server.exchange(requests_frame(first, [(call.kind, call.needs) for call in calls], kind))
            return read_answers(first, [call.kind for call in calls], frame)
        except Malformed:
            raise Broken("the process answered what is no answer to this call") from None
