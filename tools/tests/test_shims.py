import errno
import os
import pathlib
import shutil
import sys
import tempfile
import time
import unittest

from tools.harness import shims
from tools.harness.program import run

# Two writes, a read, two syncs and a size, on the file that the last word names; the number of what failed, or 0.
CALLS = """
import os, sys
file = os.open(sys.argv[1], os.O_RDWR | os.O_CREAT)
try:
    os.pwrite(file, b"abc", 5)
    os.pwrite(file, b"de", 0)
    os.pread(file, 4, 0)
    os.fsync(file)
    os.fdatasync(file)
    os.ftruncate(file, 100)
    print(0)
except OSError as error:
    print(error.errno)
"""
KINDS = ["write", "flush", "read"]
# Three writes to standard output; how many bytes each took, and the number of what failed.
OUTPUT = """
import os, sys
try:
    for content in (b"abc", b"de", b"f"):
        print(os.write(1, content), file=sys.stderr)
except OSError as error:
    print(error.errno, file=sys.stderr)
"""


@unittest.skipUnless(shutil.which("cc"), "there is no cc")
class Shims(unittest.TestCase):
    """Each library before the calls of Python itself."""

    def setUp(self):
        folder = tempfile.TemporaryDirectory()
        self.addCleanup(folder.cleanup)
        self.folder, self.file = folder.name, os.path.join(folder.name, "file")

    def calls(self, shim, **variables):
        ran = run([sys.executable, "-c", CALLS, self.file], env=shim.environment(**variables))
        return ran.lines()

    def test_calls_are_noted(self):
        noted, copied = os.path.join(self.folder, "noted"), os.path.join(self.folder, "copied")
        shim = shims.Shim("calls", self.folder)
        self.assertEqual(self.calls(shim, CALLS_FILE=noted, BYTES_FILE=copied), ["0"])
        self.assertEqual(pathlib.Path(copied).read_bytes(), b"abcde")
        lines = ["write 5 3", "write 0 2", "fsync 0 0", "fdatasync 0 0", "size 0 100"]
        self.assertEqual(pathlib.Path(noted).read_text().splitlines(), lines)

    def test_the_ends_of_syncs_and_the_output_are_noted(self):
        noted = os.path.join(self.folder, "noted")
        self.assertEqual(self.calls(shims.Shim("calls", self.folder), CALLS_FILE=noted, NOTE_OUTPUT="1"), ["0"])
        found = [name for name, _, _ in shims.noted_calls(noted)]
        self.assertEqual(found[:8], ["write", "write", "fsync", "synced", "fdatasync", "synced", "size", "output"])

    def test_names_of_files_are_noted(self):
        noted = os.path.join(self.folder, "noted")
        words = [sys.executable, "-c", CALLS + "os.unlink(sys.argv[1])", self.file]
        ran = run(words, env=shims.Shim("calls", self.folder).environment(CALLS_FILE=noted, NOTE_FILES="1"))
        self.assertEqual(ran.lines(), ["0"])
        lines = pathlib.Path(noted).read_text().splitlines()
        self.assertEqual((lines[0], lines[-1]), ("write 5 3 file", "removed 0 0 file"))

    def test_output_has_room_for_some_bytes(self):
        environment = shims.Shim("output", self.folder).environment(OUTPUT_ROOM="4")
        ran = run([sys.executable, "-c", OUTPUT], env=environment)
        self.assertEqual((ran.out, ran.error_text().split()), (b"abcd", ["3", "1", str(errno.ENOSPC)]))

    def test_a_call_is_refused(self):
        shim = shims.Shim("refusals", self.folder)
        with shims.shared_counts(*KINDS) as counts:
            self.assertEqual(self.calls(shim, COUNT_FILE=counts.path), ["0"])
            self.assertEqual(counts.read(), {"write": 2, "flush": 2, "read": 1})
            for kind, at in [("write", 2), ("flush", 1), ("read", 1)]:
                counts.clear()
                failing = {"FAIL_KIND": kind, "FAIL_AT": str(at), "COUNT_FILE": counts.path}
                self.assertEqual(self.calls(shim, **failing), [str(errno.EIO)])
                self.assertEqual(counts.read()[kind], at)

    def test_calls_take_longer(self):
        begun = time.monotonic()
        self.assertEqual(self.calls(shims.Shim("delays", self.folder), DELAY="40"), ["0"])
        self.assertGreaterEqual(time.monotonic() - begun, 5 * 0.04)

    def test_requests_for_memory_are_counted(self):
        with shims.shared_counts("requests") as counts:
            self.assertEqual(self.calls(shims.Shim("memory", self.folder), COUNT_FILE=counts.path), ["0"])
            self.assertGreater(counts.read()["requests"], 100)
