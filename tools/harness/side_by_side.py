"""Commands that run side by side, each with a limit, and a verdict on each."""

import contextlib
import os
import shutil
import signal
import subprocess
import sys
import tempfile
import threading
import time
from concurrent.futures import ThreadPoolExecutor
from typing import List, NamedTuple

from tools import TOP
from tools.harness.pool_files import IN_MEMORY

# A line that begins so is printed of a command that passed, too.
SKIPPED = "skipped "
# Of a longer text so many characters of its front and of its end are printed.
SHOWN = 8_000
# The files of pools and what else all parts make, at most.
ROOM = 4 * 2**30


class Part(NamedTuple):
    """A command that is judged by its status: its name, its words, the seconds that it may take, and its folder."""

    name: str
    words: List[str]
    limit: int
    folder: str = str(TOP)


class Ended(NamedTuple):
    """How a part ended: whether it passed, after how many seconds, and what it printed."""

    part: Part
    is_passed: bool
    seconds: float
    lines: List[str]

    def text(self):
        """What is told of the part: what a failed one printed, and what another one skipped."""
        told = f"{'passed' if self.is_passed else 'FAILED'} {self.part.name}, {self.seconds:.0f} s"
        skipped = [line for line in self.lines if line.startswith(SKIPPED)]
        return "\n".join([told, *(skipped if self.is_passed else shortened(self.lines))])


def shortened(lines):
    """These lines, or the front and the end of a longer text."""
    text = "\n".join(lines)
    if len(text) <= 2 * SHOWN:
        return lines
    return [text[:SHOWN], f".. {len(text) - 2 * SHOWN} characters ..", text[-SHOWN:]]


def processors():
    """How many processors this process may use."""
    return len(os.sched_getaffinity(0))


def kill(process):
    """Kills a process, with all that it started in its group."""
    with contextlib.suppress(ProcessLookupError):
        os.killpg(process.pid, signal.SIGKILL)
    process.wait()


def end_by_signal(status):
    """What is told of the end of a process with this status: by which signal it ended, if by one."""
    return [f"ended by {signal.Signals(-status).name}"] if status < 0 else []


def new_room():
    """A new folder for files, in memory if that has room: a flush of a disk takes most of the time of some parts."""
    memory = os.statvfs(IN_MEMORY) if IN_MEMORY else None
    has_room = memory and memory.f_bavail * memory.f_frsize >= ROOM
    folder = tempfile.mkdtemp(prefix="side-by-side-", dir=IN_MEMORY if has_room else None)
    # A check may run a program as another user, who has to get to the program and its file.
    os.chmod(folder, 0o711)
    return folder


class SideBySide:
    """Parts that run side by side, as many as there are processors. Each is told when it ends. Those that still run when
    the `with` is left by an error, by Ctrl-C or by SIGTERM are killed. All make their files in one folder, which goes at
    the end."""

    def __init__(self):
        self.pool, self.lock = ThreadPoolExecutor(processors()), threading.Lock()
        self.ends, self.running, self.is_over = [], set(), False

    def __enter__(self):
        self.room = new_room()
        self.before = signal.signal(signal.SIGTERM, lambda number, _: sys.exit(128 + number))
        return self

    def __exit__(self, kind, *_):
        with self.lock:
            self.is_over = True
            for process in self.running if kind else []:
                kill(process)
        self.pool.shutdown()
        shutil.rmtree(self.room, ignore_errors=True)
        signal.signal(signal.SIGTERM, self.before)

    def start(self, part):
        """Starts a part once a processor is free, and returns how to wait for its end."""
        return self.pool.submit(self.run, part)

    def begin(self, part, printed):
        """The process of a part, in a group of its own, or None if all is over."""
        words, environment = [str(word) for word in part.words], {**os.environ, "TMPDIR": self.room}
        how = {"stdin": subprocess.DEVNULL, "stdout": printed, "stderr": subprocess.STDOUT, "cwd": part.folder}
        with self.lock:
            if self.is_over:
                return None
            process = subprocess.Popen(words, start_new_session=True, env=environment, **how)
            self.running.add(process)
        return process

    def run(self, part):
        """Runs a part, tells how it ended, and returns that."""
        started = time.monotonic()
        with tempfile.TemporaryFile("w+", errors="replace") as printed:
            process = self.begin(part, printed)
            if not process:
                return None
            try:
                process.wait(part.limit)
                is_passed, end = process.returncode == 0, end_by_signal(process.returncode)
            except subprocess.TimeoutExpired:
                is_passed, end = False, [f"{part.name} had no end after {part.limit} seconds"]
            # A process that it left behind ends, too.
            kill(process)
            printed.seek(0)
            ended = Ended(part, is_passed, time.monotonic() - started, printed.read().splitlines() + end)
        with self.lock:
            self.running.remove(process)
            if not self.is_over:
                print(ended.text(), flush=True)
                self.ends.append(ended)
        return ended

    def end(self):
        """Waits for all parts, prints how many passed and failed, and returns the status."""
        self.pool.shutdown()
        failed = [ended.part.name for ended in self.ends if not ended.is_passed]
        if failed:
            print("failed:", ", ".join(failed))
        print(f"{len(self.ends) - len(failed)} passed, {len(failed)} failed", flush=True)
        return int(bool(failed))
