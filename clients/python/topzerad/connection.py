"""The socket to what has a pool, and a hub that several programs share."""

from __future__ import annotations

import contextlib
import errno
import os
import socket
import time
from typing import Optional, Union

from .errors import Broken, Ended, Error, NoOpening, TimedOut, bad_argument, unusable
from .frames import HEAD, MAX_FRAME, VERSION, Frame, Malformed, Opened, read_opening

Path = Union[str, bytes, "os.PathLike[str]", "os.PathLike[bytes]"]

LONGEST_WAIT = 86_400
# A write to a process that is gone is an error, and no signal that ends the caller.
_NO_SIGNAL = getattr(socket, "MSG_NOSIGNAL", 0)


def checked_timeout(seconds: float) -> float:
    if not 0 < seconds <= LONGEST_WAIT:
        raise bad_argument(f"timeout {seconds}: above 0, up to {LONGEST_WAIT}")
    return seconds


class Connection:
    """Frames go over its socket. One thread at a time may call it."""

    is_shared = False
    """Whether other programs use the pool, too."""

    _socket: socket.socket

    def __init__(self, timeout: Optional[float]) -> None:
        self._opener = os.getpid()
        self._timeout = None if timeout is None else checked_timeout(timeout)
        self._received = bytearray()

    @property
    def is_forked(self) -> bool:
        """Whether the caller is a child of the process that opened the pool."""
        return os.getpid() != self._opener

    def exchange(self, content: bytes) -> Frame:
        """Sends a frame, and returns the one that answers it."""
        try:
            deadline = self._deadline()
            self._wait_until(deadline)
            self._socket.sendall(content, _NO_SIGNAL)
            return self._receive(deadline)
        except socket.timeout:
            raise TimedOut(f"the process with the pool gave no answer in {self._timeout} seconds") from None
        except ConnectionError:
            raise self._lost() from None

    def _lost(self) -> Ended:
        """The error of a call that found that the process was gone."""
        raise NotImplementedError

    def _deadline(self, besides: int = 0) -> Optional[float]:
        return None if self._timeout is None else time.monotonic() + self._timeout + besides

    def _wait_until(self, deadline: Optional[float]) -> None:
        """Sets how long the next call of the socket may wait."""
        left = None if deadline is None else deadline - time.monotonic()
        if left is not None and left <= 0:
            raise socket.timeout
        self._socket.settimeout(left)

    def _receive(self, deadline: Optional[float]) -> Frame:
        size, version, kind, number = HEAD.unpack(self._take(HEAD.size, deadline))
        if version != VERSION or not HEAD.size <= size <= MAX_FRAME:
            raise Malformed
        return Frame(kind, number, self._take(size - HEAD.size, deadline))

    def _take(self, count: int, deadline: Optional[float]) -> bytes:
        """So many bytes of what the process writes."""
        while len(self._received) < count:
            self._wait_until(deadline)
            more = self._socket.recv(max(count - len(self._received), 65_536))
            if not more:
                raise ConnectionResetError
            self._received += more
        content = bytes(self._received[:count])
        del self._received[:count]
        return content


class Hub(Connection):
    """A hub, `ztxg-hub`, that listens on a Unix socket."""

    is_shared = True
    pid = None

    def __init__(self, path: Path, timeout: Optional[float]) -> None:
        super().__init__(timeout)
        self._path = os.fsdecode(path)
        self._socket = socket.socket(socket.AF_UNIX)

    def open(self, wait: int = 0) -> Opened:
        """Connects, and reads what the hub says first."""
        deadline = self._deadline(wait)
        try:
            self._connect(deadline)
            return read_opening(self._receive(deadline), self._path)
        except socket.timeout:
            error: Error = TimedOut(f"the hub didn't open the pool in {self._timeout} seconds")
        except Malformed:
            error = Broken("the hub said first what is no opening")
        except ConnectionResetError:
            error = NoOpening("the hub ended the connection, and didn't say whether the pool is open")
        except BaseException:
            self.end()
            raise
        self.end()
        raise error

    def _connect(self, deadline: Optional[float]) -> None:
        """Connects. While too many wait for the hub, it is tried again."""
        pause = 0.001
        while True:
            self._wait_until(deadline)
            try:
                return self._socket.connect(self._path)
            except socket.timeout:
                raise
            except OSError as error:
                if error.errno != errno.EAGAIN:
                    number = error.errno or 0
                    raise unusable(number, os.strerror(number) if number else str(error), self._path) from None
            time.sleep(pause)
            pause = min(2 * pause, 0.05)

    def _lost(self) -> Ended:
        return Ended("the hub ended the connection")

    def end(self) -> None:
        """Ends the connection, also for a child of a fork."""
        with contextlib.suppress(OSError):
            self._socket.shutdown(socket.SHUT_RDWR)
        self._socket.close()

    def leave(self) -> None:
        """Closes what a child has of it after a fork."""
        self._socket.close()
