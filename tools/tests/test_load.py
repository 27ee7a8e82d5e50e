import unittest

from tools.model import load
from tools.model.contents import digest
from tools.model.formats import table

SEED = 5


class Loads(unittest.TestCase):
    def test_digests(self):
        """Those of docs/SCRIPTS.md, "The load", from a reading of its rules that shares no code with this one."""
        for count, wanted in table("| N | digest |"):
            self.assertEqual(digest(b"tank", load.contents(SEED, int(count))), wanted)

    def test_a_pool_holds_the_writes_that_were_made(self):
        objects = load.contents(SEED, 200)
        for stream in range(load.STREAMS):
            self.assertIn(200, [count for count, _ in load.counts_held(objects, SEED, stream, 195)])
            self.assertEqual(load.counts_held(objects, SEED, stream, 201), [])
