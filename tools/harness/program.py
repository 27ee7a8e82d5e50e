"""Runs of a built program: its standard input, its limits, what it prints, and what it costs."""

import argparse
import os
import pathlib
import resource
import select
import subprocess
import tempfile
import time
from typing import List, NamedTuple, Optional

from tools import Failed


class Lines(NamedTuple):
    """How a run ended: its status, and the lines on standard output and standard error."""

    status: Optional[int]
    out: List[str]
    errors: List[str]


class Ran(NamedTuple):
    """How a run ended: its status, and the bytes on standard output and standard error. The status is None if the time
    was over first."""

    status: Optional[int]
    out: bytes
    errors: bytes

    def text(self):
        return self.out.decode(errors="replace")

    def error_text(self):
        return self.errors.decode(errors="replace")

    def lines(self):
        return self.text().splitlines()

    def in_lines(self):
        return Lines(self.status, self.lines(), self.error_text().splitlines())


def built(path):
    """The path of a built program, whatever the folder."""
    if not os.path.isfile(path):
        raise argparse.ArgumentTypeError(f"{path} is no file")
    return os.path.abspath(path)


def add_program(parser, name="ztxg"):
    """The word that names a built program."""
    parser.add_argument(name, metavar=name.upper(), type=built, help=f"a built {name}")


def text_of(lines):
    """The text of these lines, each ended by a newline."""
    return b"".join((line if isinstance(line, bytes) else line.encode()) + b"\n" for line in lines)


def terminal_text(file):
    """What a terminal shows, part by part as it comes, until its other end is closed."""
    try:
        while text := os.read(file, 65_536):
            yield text
    except OSError:
        # A terminal answers so after its last byte if nobody has its other end.
        pass


def run(words, lines=(), seconds=None, out=subprocess.PIPE, **process):
    """A run with these words and these lines on standard input, which ends after so many seconds. `process` has what
    `subprocess.run` takes besides, as an environment or a user."""
    try:
        ran = subprocess.run(
            words, input=text_of(lines), stdout=out, stderr=subprocess.PIPE, timeout=seconds, **process
        )
    except subprocess.TimeoutExpired:
        return Ran(None, b"", f"no end after {seconds} seconds".encode())
    return Ran(ran.returncode, ran.stdout or b"", ran.stderr)


class Conversation:
    """A run that gets its lines one by one, each after the answer to the one before."""

    def __init__(self, words, seconds, **process):
        self.seconds = seconds
        self.process = subprocess.Popen(words, stdin=subprocess.PIPE, stdout=subprocess.PIPE, bufsize=0, **process)

    def __enter__(self):
        return self

    def __exit__(self, *_):
        self.process.kill()
        self.process.stdin.close()
        self.process.stdout.close()
        self.process.wait()

    def ask(self, line):
        """The answer to a line, or what came of it until the output ended or the time was over."""
        self.process.stdin.write(text_of([line]))
        answer = b""
        while not answer.endswith(b"\n"):
            is_ready = select.select([self.process.stdout], [], [], self.seconds)[0]
            byte = self.process.stdout.read(1) if is_ready else b""
            if not byte:
                break
            answer += byte
        return answer.decode()

    def end(self):
        """The status, after the last line."""
        self.process.stdin.close()
        return self.process.wait(self.seconds)


class Cost(NamedTuple):
    """User and system seconds of a run, and the most bytes that it had in memory."""

    seconds: float
    memory: int


def status_of(process, thread=""):
    """What the kernel says of a process, or of one of its threads, by names."""
    path = pathlib.Path(f"/proc/{process}/task/{thread}/status" if thread else f"/proc/{process}/status")
    return {name: value.strip() for name, value in (line.split(":", 1) for line in path.read_text().splitlines())}


def memory_of(process):
    """The bytes that a process has in memory, and the most that it had, as the kernel says."""
    said = status_of(process)
    return tuple(int(said.get(name, "0 kB").split()[0]) * 1024 for name in ("VmRSS", "VmHWM"))


def peak_memory(process):
    """The most bytes that a process had in memory, as the kernel says until it ends. `ru_maxrss` would count what this
    program had in memory when it began the process."""
    most = 0
    while process.poll() is None:
        try:
            most = max(most, memory_of(process.pid)[1])
        except OSError:
            break
        time.sleep(0.005)
    return most


def seconds_of_children():
    usage = resource.getrusage(resource.RUSAGE_CHILDREN)
    return usage.ru_utime + usage.ru_stime


def measure(words, lines=()):
    """What a run prints that has these lines on standard input, and its cost. Its status has to be 0."""
    with tempfile.TemporaryFile() as printed, tempfile.TemporaryFile() as handed:
        handed.write(text_of(lines))
        handed.seek(0)
        before = seconds_of_children()
        process = subprocess.Popen(words, stdin=handed, stdout=printed)
        memory = peak_memory(process)
        if process.wait() != 0:
            raise Failed(f"{tuple(words)} ended with {process.returncode}", status=2)
        cost = Cost(seconds_of_children() - before, memory)
        printed.seek(0)
        return printed.read().decode(), cost
