"""Programs that write the same contents, one durable write each, and say after each that it is done.

Each can be run with its calls noted (`tools/harness/power_cuts.py`), and reads what a power cut leaves of its files.
"""

import contextlib
import os
import pathlib
import sqlite3
import subprocess
import sys

from tools import Failed
from tools.harness.pool_files import create
from tools.harness.program import run
from tools.harness.served import Served
from tools.model.frames import CALLS, Request, read_answers, requests_frame
from tools.model.serial_pool import LEAST

SECONDS = 600
LENGTH = 512
OBJECT = 1
# So the pool syncs some times within 200 writes.
DIRTY = 1_048_576

FILE = """
import os, sys
contents, file = sys.stdin.buffer.read(), os.open(sys.argv[1], os.O_RDWR)
for place in range(0, len(contents), {length}):
    os.pwrite(file, contents[place : place + {length}], place)
    {flush}
    os.write(1, b"done\\n")
"""
SQLITE = """
import os, sqlite3, sys
contents = sys.stdin.buffer.read()
connection = sqlite3.connect(sys.argv[1], isolation_level=None)
connection.execute("PRAGMA synchronous={synchronous}")
for number in range(len(contents) // {length}):
    content = contents[{length} * number : {length} * (number + 1)]
    connection.execute("INSERT INTO writes VALUES (?, ?)", (number, content))
    os.write(1, b"done\\n")
"""


def run_python(text, path, contents, environment):
    """Runs a program that says of each of its writes that it is done."""
    words = [sys.executable, "-c", text, path]
    ran = subprocess.run(words, input=b"".join(contents), capture_output=True, timeout=SECONDS, env=environment)
    if ran.returncode or ran.stdout != b"done\n" * len(contents):
        raise Failed(f"a writer ends with {ran.returncode}: {ran.stderr.decode()}", status=2)


class PlainFile:
    """A file that gets its writes one behind the other, without a flush or with one after each."""

    first_outputs = 0

    def __init__(self, title, is_flushed):
        self.title, self.flush = title, "os.fdatasync(file)" if is_flushed else "pass"

    def prepare(self, folder):
        pathlib.Path(folder, "file").write_bytes(b"")

    def write(self, folder, contents, environment):
        text = FILE.format(length=LENGTH, flush=self.flush)
        run_python(text, os.path.join(folder, "file"), contents, environment)

    def read(self, folder, count):
        """The writes by their numbers, and whether the program finds what it reads damaged."""
        content = pathlib.Path(folder, "file").read_bytes()
        return {number: content[LENGTH * number : LENGTH * (number + 1)] for number in range(count)}, False


class Sqlite:
    """A database that gets a row by each transaction, all by default but for `synchronous`."""

    first_outputs = 0

    def __init__(self, title, synchronous):
        self.title, self.synchronous = title, synchronous

    def prepare(self, folder):
        with contextlib.closing(sqlite3.connect(os.path.join(folder, "base"))) as connection:
            connection.execute("CREATE TABLE writes (number INTEGER PRIMARY KEY, content BLOB)")

    def write(self, folder, contents, environment):
        text = SQLITE.format(length=LENGTH, synchronous=self.synchronous)
        run_python(text, os.path.join(folder, "base"), contents, environment)

    def read(self, folder, count):
        """Each row is asked for by itself, so a damaged database gives what it can. It judges itself by its check."""
        found = {}
        with contextlib.closing(sqlite3.connect(os.path.join(folder, "base"))) as connection:
            for number in range(count):
                with contextlib.suppress(sqlite3.Error):
                    asked = connection.execute("SELECT content FROM writes WHERE number = ?", (number,))
                    found[number] = next(asked, (None,))[0]
            try:
                is_whole = connection.execute("PRAGMA integrity_check").fetchall() == [("ok",)]
            except sqlite3.Error:
                is_whole = False
        return found, not is_whole


class Pool:
    """A served pool, of which each write is a durable transaction."""

    # Its opening is an output, too.
    first_outputs = 1

    def __init__(self, title, ztxg):
        self.title, self.ztxg = title, ztxg

    def ask(self, served, call, needs=()):
        served.send(requests_frame([Request(0, call, needs)]))
        (answer,) = read_answers(served.answer())
        if answer.came != CALLS[call]:
            raise Failed(f"{call} is answered by {answer}", status=2)

    def prepare(self, folder):
        path = os.path.join(folder, "pool")
        create(self.ztxg, path, LEAST)
        served = Served(self.ztxg, path)
        self.ask(served, "transact_durably", [("c", OBJECT, 0, b"")])
        served.end()

    def write(self, folder, contents, environment):
        served = Served(self.ztxg, os.path.join(folder, "pool"), "--dirty", str(DIRTY), env=environment)
        for number, content in enumerate(contents):
            self.ask(served, "transact_durably", [("w", OBJECT, LENGTH * number, content)])
        served.kill()

    def read(self, folder, count):
        """The program is run on the file, twice: it judges the pool, and gets the object."""
        path = os.path.join(folder, "pool")
        is_whole = run([self.ztxg, "check", path], seconds=SECONDS).status == 0
        content = run([self.ztxg, "get", path, str(OBJECT)], seconds=SECONDS).out
        return {number: content[LENGTH * number : LENGTH * (number + 1)] for number in range(count)}, not is_whole
