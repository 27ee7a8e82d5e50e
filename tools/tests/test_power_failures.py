import contextlib
import io
import os
import random
import tempfile
import unittest

from tools.checks.power_failures import Numbered, PowerFailures
from tools.model.layout import AREA, BLOCK
from tools.model.pool_bytes import config, log_block, record, uberblock
from tools.model.pool_image import Image
from tools.model.serial_pool import LEAST

GUID, FIRST, NEXT = 77, AREA, AREA + BLOCK
CREATES = [("c", number, 0, b"") for number in range(3)]
WRITE = [("w", 0, 0, b"abcd")]
LOGGED, END = f"write {NEXT} {BLOCK}", "synced 0 0"


def pool_before():
    """A pool that was imported, whose log has three objects in its first block."""
    image = Image(bytearray(LEAST))
    image.put_configs(config(GUID, 4, LEAST, b"tank"))
    image.put_uberblock(uberblock(8, GUID, import_number=1, log_address=FIRST))
    image.put(FIRST, log_block(GUID, 9, 0, 1, NEXT, record(9, 0, CREATES)))
    return bytes(image.content)


class Answers(unittest.TestCase):
    """A transaction that goes into the second log block, and the write that answers it as durable."""

    def differences(self, *calls):
        with tempfile.TemporaryDirectory() as folder, contextlib.redirect_stdout(io.StringIO()):
            judge = PowerFailures(None, None, None, None, os.path.join(folder, "pool"), random.Random(1))
            numbered = Numbered(judge.chance)
            self.assertEqual(numbered.server.commit(WRITE), 0)
            numbered.after.append(numbered.server.objects)
            judge.noted.write_text("".join(f"{call}\n" for call in calls))
            judge.copied.write_bytes(log_block(GUID, 9, 1, 1, NEXT + BLOCK, record(9, 1, WRITE)))
            judge.judge_round("a round", pool_before(), numbered, 0, [(0, 0)], [(0, 1)])
            return judge.differences

    def test_one_after_the_end_of_the_flush_is_right(self):
        self.assertEqual(self.differences(LOGGED, "fsync 0 0", END, "output 0 37"), 0)

    def test_an_earlier_one_is_wrong(self):
        for calls in [
            ["output 0 37", LOGGED, "fsync 0 0", END],
            [LOGGED, "output 0 37", "fsync 0 0", END],
            [LOGGED, "fsync 0 0", "output 0 37", END],
            ["fsync 0 0", LOGGED, END, "output 0 37"],
            [LOGGED, "output 0 37"],
        ]:
            self.assertGreater(self.differences(*calls), 0, calls)
