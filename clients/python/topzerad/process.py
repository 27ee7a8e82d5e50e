"""The program: a process of one's own that serves a pool, and one that makes a pool."""

from __future__ import annotations

import contextlib
import errno
import os
import re
import socket
import subprocess
import tempfile
import time
from typing import Iterator, List, Optional, Union

from .connection import LONGEST_WAIT, Connection, Path, checked_timeout
from .errors import Broken, Ended, Error, FileUnusable, NoOpening, Refused, TimedOut, unusable
from .frames import Malformed, Opened, read_opening
from .operations import checked_name, fitted

GREATEST = 2**64 - 1
_IN_USE = "in use by another process or device"


def file_word(path: Path) -> str:
    """A path as a word that the program takes for no option."""
    word = os.fsdecode(path)
    return f"./{word}" if word.startswith("-") and word != "-" else word


def option_words(most: int = GREATEST, **options: Optional[int]) -> Iterator[str]:
    """The words for those options of the program that are given."""
    for name, value in options.items():
        if value is not None:
            yield f"--{name}"
            yield str(fitted(name, value, most))


def not_started(program: Path, error: OSError) -> FileUnusable:
    number, path = error.errno or 0, os.fsdecode(program)
    cause = f"the program can't be started: {os.strerror(number)}"
    # Without processes left the system says EAGAIN, which isn't that another one has a file.
    return FileUnusable(number, cause, path) if number == errno.EAGAIN else unusable(number, cause, path)


def described(status: Optional[int], said: str) -> str:
    """How a process ended, and what it printed on standard error."""
    if status is None:
        how = "ended"
    elif status < 0:
        how = f"was killed by signal {-status}"
    else:
        how = f"ended with status {status}"
    return f"{how} ({'; '.join(said.splitlines())})" if said else how


class Process(Connection):
    """A process `PROGRAM serve FILE`, and the socket to it. One thread at a time may call it.

    The process has a session of its own, so a Ctrl-C that ends the caller lets it sync the pool."""

    def __init__(self, program: Path, path: Path, options: List[str], timeout: Optional[float]) -> None:
        super().__init__(timeout)
        self._path = file_word(path)
        self._errors = tempfile.TemporaryFile()
        self._socket, theirs = socket.socketpair()
        try:
            self._popen = subprocess.Popen(
                [os.fspath(program), "serve", self._path, *options],
                stdin=theirs,
                stdout=theirs,
                stderr=self._errors,
                start_new_session=True,
            )
        except BaseException as error:
            self._close_files()
            if isinstance(error, OSError):
                raise not_started(program, error) from None
            raise
        finally:
            theirs.close()

    @property
    def pid(self) -> int:
        return self._popen.pid

    def open(self, wait: int) -> Opened:
        """Reads what the process says first. If the pool isn't open, the process is ended and its error raised. It may
        wait so many seconds for the file besides the timeout."""
        try:
            return read_opening(self._receive(self._deadline(wait)), self._path)
        except socket.timeout:
            self.kill()
            raise TimedOut(f"the process didn't open the pool in {self._timeout} seconds") from None
        except ConnectionError:
            status, said = self._wait_a_little(), self._said()
            self.kill()
            text = f"the process {described(status, said)}, and didn't say whether the pool is open"
            raise NoOpening(text, status) from None
        except Malformed:
            self.kill()
            raise Broken("the process said first what is no opening") from None
        except BaseException:
            self.kill()
            raise

    def _lost(self) -> Ended:
        return self._ended(self._wait_a_little())

    # The end

    def end(self) -> None:
        """Ends the process once it has synced the pool. One that doesn't end within the timeout is killed."""
        if self._errors.closed:
            return
        deadline = self._deadline()
        try:
            with contextlib.suppress(OSError):
                self._socket.shutdown(socket.SHUT_WR)
            self._drain(deadline)
            self._popen.wait(None if deadline is None else max(deadline - time.monotonic(), 0.1))
        except (socket.timeout, subprocess.TimeoutExpired):
            self.kill()
            raise TimedOut(f"the process with the pool didn't end in {self._timeout} seconds, and was killed") from None
        error = self._ended(self._popen.returncode)
        self._close_files()
        # If the caller ignores SIGCHLD, no status is known, and 0 stands for it. The text still tells of a fault.
        if error.status or "(ztxg: " in str(error):
            raise error

    def _drain(self, deadline: Optional[float]) -> None:
        """Reads what is left of an answer that was cut off: the process waits until it is read."""
        with contextlib.suppress(ConnectionError):
            more = b"more"
            while more:
                self._wait_until(deadline)
                more = self._socket.recv(65_536)

    def kill(self) -> None:
        """Ends the process at once."""
        self._popen.kill()
        self._popen.wait()
        self._close_files()

    def leave(self) -> None:
        """Closes what a child has of it after a fork. The process is its parent's, and goes on."""
        self._popen.returncode = 0  # so that nothing here waits for it
        self._close_files()

    def _close_files(self) -> None:
        self._socket.close()
        self._errors.close()

    def _wait_a_little(self) -> Optional[int]:
        """The status of a process that has closed its end of the socket."""
        try:
            return self._popen.wait(1)
        except subprocess.TimeoutExpired:
            return None

    def _said(self) -> str:
        # The process shares the place in the file, so it isn't moved.
        return os.pread(self._errors.fileno(), 4_096, 0).decode(errors="replace").strip()

    def _ended(self, status: Optional[int]) -> Ended:
        return Ended(f"the process with the pool {described(status, self._said())}", status)


# Making a pool.


def create_pool(
    program: Path,
    path: Path,
    name: Union[str, bytes],
    guid: int,
    size: int,
    *,
    replace: bool = False,
    moment: Optional[int] = None,
    wait: Optional[int] = None,
    timeout: Optional[float] = None,
) -> None:
    """Makes a pool in a file by `PROGRAM create`. The file gets `size` bytes: 6 MiB to 1 GiB, in steps of 256 KiB.

    `guid` is a number that distinguishes pools, and `moment` a time in seconds that the pool stores. A file that exists
    is refused by `FilePresent`, unless `replace` says that the pool takes its place. `wait` is for how many seconds,
    up to 86,400, it tries again while another process has the file. `timeout` is how many seconds it may take besides.

    Raises `Refused` (8 for a size that no pool may have), `FileUnusable`, `Ended` for any other end of the program, and
    `TimedOut`: then the file may be there without a pool.
    """
    place, pipe = file_word(path), subprocess.PIPE
    words: List[Union[str, bytes]] = [os.fspath(program), "create", place, checked_name(name)]
    words += [str(fitted("guid", guid, GREATEST)), str(fitted("size", size, GREATEST)), "--verbose"]
    words += [] if replace else ["--new"]
    words += [*option_words(moment=moment), *option_words(LONGEST_WAIT, wait=wait)]
    longest = None if timeout is None else checked_timeout(timeout) + (wait or 0)
    try:
        ran = subprocess.run(words, stdin=subprocess.DEVNULL, stdout=pipe, stderr=pipe, timeout=longest)
    except subprocess.TimeoutExpired:
        raise TimedOut(f"the program didn't make the pool in {timeout} seconds, and was killed") from None
    except OSError as error:
        raise not_started(program, error) from None
    # If the caller ignores SIGCHLD, the status is 0 in any case. So what was printed counts, too.
    if ran.returncode or not ran.stdout.startswith(b"created "):
        raise create_error(ran.returncode, ran.stderr.decode(errors="replace").strip(), place)


def create_error(status: int, said: str, path: str) -> Error:
    """Why a pool wasn't made, by the status of the program and the text that it printed."""
    causes = re.findall(r"^ztxg: cause: (.*)$", said, re.MULTILINE)
    cause = causes[0] if causes else ""
    refused = re.search(r"^ztxg: refused (\d+) \w+(?: (\d+) (\d+))?$", said, re.MULTILINE)
    if refused:
        number, kind, address = (int(word or 0) for word in refused.groups())
        return Refused(number, kind, address, cause=cause)
    if re.search(r"^ztxg: cannot use ", said, re.MULTILINE):
        by_system = re.search(r"\(os error (\d+)\)$", cause)
        number = int(by_system.group(1)) if by_system else errno.EAGAIN if cause == _IN_USE else 0
        return unusable(number, cause or "the program doesn't say why", path)
    return Ended(f"the program {described(status, said)}, and made no pool", status)
