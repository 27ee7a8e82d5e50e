"""The errors of this package. Each is an `Error`, and one of the built-in errors besides if one has its meaning."""

from __future__ import annotations

import errno
import os
from typing import TYPE_CHECKING, Dict, Optional, Type, Union

if TYPE_CHECKING:
    from .frames import Receipt

NAMES = (
    "NoMemory",
    "Read",
    "Write",
    "Flush",
    "Suspended",
    "NoPool",
    "Damaged",
    "BadGeometry",
    "NoObject",
    "Exists",
    "BadRange",
    "OutOfPlan",
    "NotLocked",
    "Busy",
    "LockInUse",
    "NoSpace",
    "Throttled",
    "TooLarge",
    "NoSuchTransaction",
    "NotReady",
    "NoSuchLock",
    "TooMany",
    "NoLogSpace",
)
"""The names of the refusals 1 to 23 (`docs/FORMATS.md`, "Refusals")."""

TEXTS = (
    "there is no memory for the call",
    "the device refused a read",
    "the device refused a write",
    "the device refused a flush",
    "the pool is suspended: a write or a flush was refused before",
    "the device holds no pool: no label has a valid uberblock with a config",
    "the block of kind {kind} at byte {address} is damaged",
    "a pool can't have the size of this device",
    "there is no such object",
    "the object exists already",
    "a number, a range, a plan, a name or a limit is out of bounds",
    "the operations are not those of the transaction's plan",
    "no lock of the owner covers the range",
    "the range overlaps one that is locked",
    "an open transaction uses the lock",
    "there are not enough free blocks",
    "too many bytes are not synced yet: sync a group first",
    "the transaction's log record would have more than 65536 bytes",
    "no such transaction is open",
    "the transaction groups are not ready for this step",
    "the owner holds no such lock",
    "there are as many locks or transactions as there may be, or no number is left",
    "there is no block for the log, or no log number is left",
)
"""The texts of the refusals 1 to 23."""

NO_OBJECT, EXISTS, BAD_RANGE, TOO_LARGE, TOO_MANY = 9, 10, 11, 18, 22


class Error(Exception):
    """What every error of this package is."""


class Refused(Error):
    """The pool refused a call, and is as it was before, unless `receipt` or `committed` say more.

    `number` is the refusal's (`docs/FORMATS.md`, "Refusals"), and `cause` says more of it, if more is known. `kind`
    and `address` are those of the block for `Damaged`, else 0.
    """

    receipt: Optional[Receipt]
    """Of `transact_durably`, if the transaction took place but could not be made durable: a crash may lose it."""

    committed: Optional[int]
    """Of `write_long`: how many bytes were committed before, counted from the first one."""

    def __init__(
        self,
        number: int,
        kind: int = 0,
        address: int = 0,
        receipt: Optional[Receipt] = None,
        cause: Optional[str] = None,
    ) -> None:
        super().__init__(number, kind, address, receipt, cause)
        self.number, self.kind, self.address, self.receipt, self.cause = number, kind, address, receipt, cause
        self.committed = None

    @property
    def name(self) -> str:
        """The refusal's name, such as `NoObject`."""
        return NAMES[self.number - 1] if 1 <= self.number <= len(NAMES) else "Unknown"

    @property
    def text(self) -> str:
        """The refusal as a sentence without a full stop."""
        if not 1 <= self.number <= len(TEXTS):
            return "this version of the client doesn't know the refusal"
        return TEXTS[self.number - 1].format(kind=self.kind, address=self.address)

    def __str__(self) -> str:
        said = f"refused {self.number} {self.name}: {self.text}"
        if self.cause and self.cause != self.text:
            said += f" ({self.cause})"
        if self.receipt is not None:
            said += "; the transaction took place, but a crash may lose it"
        if self.committed is not None:
            said += f"; {self.committed} bytes were committed before"
        return said


class BadArgument(Refused, ValueError):
    """An argument is outside its limits: refusal 11, `BadRange`. The cause has its value and the limits. Nothing was
    sent to the pool."""


def bad_argument(cause: str) -> BadArgument:
    return BadArgument(BAD_RANGE, cause=cause)


class RefusedFrame(Error):
    """The frame with the call was refused whole, by this number (`docs/FRAMES.md`). The call wasn't made."""

    def __init__(self, number: int) -> None:
        super().__init__(number)
        self.number = number

    def __str__(self) -> str:
        return f"the frame was refused: {self.number}"


class FileUnusable(Error, OSError):
    """The pool's file or a hub's socket can't be used, or the program can't be started. `filename` names it,
    `strerror` is the cause, and `errno` the system's error number, or 0 if the system refused nothing."""

    def __str__(self) -> str:
        return f"cannot use {os.fsdecode(self.filename)!r}: {self.strerror}"


class FileMissing(FileUnusable, FileNotFoundError):
    """There is no such file."""


class FilePresent(FileUnusable, FileExistsError):
    """The file of a pool that is to be made exists already."""


class FileForbidden(FileUnusable, PermissionError):
    """The caller may not use the file, or the socket of a hub."""


class FileInUse(FileUnusable, BlockingIOError):
    """Another process has the file, and an open with `wait` tries again. Or a hub has as many clients as it may."""


_BY_ERRNO: Dict[int, Type[FileUnusable]] = {
    errno.ENOENT: FileMissing,
    errno.EEXIST: FilePresent,
    errno.EACCES: FileForbidden,
    errno.EPERM: FileForbidden,
    errno.EAGAIN: FileInUse,
}


def unusable(number: int, cause: str, path: Union[str, bytes]) -> FileUnusable:
    """The error of a file with the system's error number, or 0."""
    return _BY_ERRNO.get(number, FileUnusable)(number, cause, path)


class TimedOut(Error, TimeoutError):
    """The process with the pool gave no answer within the timeout. The call may have been made, or not. Each later
    call is refused by `Broken`."""


class Ended(Error, OSError):
    """The process with the pool ended. What was durable is there when the pool is opened again. The call may have
    been made, or not."""

    status: Optional[int]
    """Its exit status, or the number of the signal that killed it as a negative number, if one of them is known."""

    def __init__(self, text: str, status: Optional[int] = None) -> None:
        super().__init__(text)
        self.status = status


class NoOpening(Ended):
    """The process ended before it said whether the pool is open. It may be an older program, or no `ztxg`."""


class Broken(Error, OSError):
    """The pool can't be asked any more: it was closed, or a call was cut off, so that answers can't be told apart.
    Close it, and open it again."""


class Forked(Error):
    """The pool was opened before a fork, by the parent. The parent alone may use it."""
