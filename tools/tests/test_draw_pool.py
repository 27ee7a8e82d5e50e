import contextlib
import fcntl
import io
import pathlib
import tempfile
import unittest
import xml.etree.ElementTree as tree

from tools import Failed
from tools.model.layout import DATA, DIRECTORY, INDIRECT, LOG, MIB, ROOT
from tools.pictures import draw_pool
from tools.pictures.draw_pool import DAMAGED, FREE, LABELLED, UNWRITTEN, Map
from tools.rows.hostile_images import DATA_AT, Tank

# Of 8 MiB (docs/FORMATS.md, 1): four labels of 256 KiB, the rest of 4 MiB, and 896 blocks, five of them used.
PLACES = {LABELLED: 256, UNWRITTEN: 896, FREE: 891, DATA: 1, INDIRECT: 1, DIRECTORY: 1, ROOT: 1, LOG: 1}


class Maps(unittest.TestCase):
    def test_what_the_bytes_of_a_pool_are(self):
        found = Map(Tank().log())
        self.assertEqual((found.counts(), found.used()), (PLACES, 5))
        self.assertEqual([found.kinds[at] for at in (0, 127, 128, 1_023)], [LABELLED] * 2 + [UNWRITTEN] * 2)
        self.assertEqual(list(found.kinds[1_024:1_030]), [LOG, DATA, INDIRECT, DIRECTORY, ROOT, FREE])

    def test_a_damaged_block_is_damaged(self):
        tank = Tank().log()
        tank.content[DATA_AT + 100] ^= 1
        counts = Map(tank).counts()
        self.assertEqual((counts[DAMAGED], counts[DATA], counts[FREE]), (1, 0, 891))

    def test_squares(self):
        """Of two blocks each: three free ones side by side, and one that has a free and a used block."""
        kinds = bytes([FREE] * 6 + [FREE, DATA])
        wanted = [(0, 0, 3, 1, FREE), (3, 0, 1, 0.5, FREE), (3, 0.5, 1, 0.5, DATA)]
        self.assertEqual(list(draw_pool.pieces(kinds, 2)), wanted)
        sizes = [6 * MIB, 8 * MIB, 16 * MIB, 64 * MIB, 65 * MIB, 1_024 * MIB]
        self.assertEqual([draw_pool.group_of(size // 4_096) for size in sizes], [1, 1, 1, 4, 8, 64])


class Files(unittest.TestCase):
    def setUp(self):
        folder = tempfile.TemporaryDirectory()
        self.addCleanup(folder.cleanup)
        self.file, self.out = pathlib.Path(folder.name, "tank.pool"), pathlib.Path(folder.name, "tank.svg")

    def draw(self, content):
        self.file.write_bytes(content)
        with contextlib.redirect_stdout(io.StringIO()) as printed:
            draw_pool.main(self.file, self.out)
        return printed.getvalue().splitlines()

    def test_the_picture_says_what_the_map_has(self):
        self.assertIn("data: 4096 bytes", self.draw(Tank().log().content))
        texts = [node.text for node in tree.parse(self.out).iter("{http://www.w3.org/2000/svg}text")]
        for text in ["Pool tank, 8 MiB", "free: 891 blocks, 3,649,536 bytes", "root: 1 block, 4,096 bytes"]:
            self.assertIn(text, texts)

    def test_a_file_that_is_not_drawn(self):
        for content in (b"", bytes(8 * MIB), bytes(5 * MIB)):
            with self.assertRaises(Failed):
                self.draw(content)
        self.file.write_bytes(Tank().content)
        with open(self.file, "rb") as other:
            fcntl.flock(other, fcntl.LOCK_EX)
            with self.assertRaisesRegex(Failed, "in use"):
                draw_pool.main(self.file, self.out)
        self.assertFalse(self.out.exists())
