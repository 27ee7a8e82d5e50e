import hashlib
import random
import unittest

from tools.checks.hostile import Expected
from tools.model.layout import DATA, DIRECTORY, INDIRECT, MIB, ROOT
from tools.model.pool_image import mount, read_pool, show_lines
from tools.rows import hostile_images, hostile_logs
from tools.rows.hostile_edits import Edits
from tools.rows.hostile_images import Tank
from tools.rows.hostile_logs import LONG, PARTS, SECOND, THIRD
from tools.rows.many_groups import many_groups


class Images(unittest.TestCase):
    def test_worked_images_are_judged_as_they_say(self):
        for title, make, line, *names in hostile_images.ROWS + hostile_logs.ROWS:
            expected = Expected(make())
            self.assertEqual(expected.check().out, [line], title)
            if expected.is_whole:
                self.assertEqual([expected.mount.name.decode()], names or ["tank"], title)

    def test_the_places_of_the_first_transaction(self):
        """docs/FORMATS.md, 4: where its blocks lie on 8 MiB."""
        nodes = mount(read_pool(Tank())).nodes
        places = {ROOT: 4_210_688, DIRECTORY: 4_206_592, INDIRECT: 4_202_496, DATA: 4_198_400}
        self.assertEqual({node.kind: node.address for node in nodes}, places)

    def test_what_show_prints(self):
        wanted = ["name tank", "guid 77", "group 9", "import 1", "blocks 896 used 4", "records 0", "objects 1", "1 4"]
        self.assertEqual(show_lines(mount(read_pool(Tank()))), wanted)

    def test_the_pool_of_version_1(self):
        """The sum is that of the file that a program of version 1 made by the same script."""
        checksum = "b1eea58176b5353f05443cc3f49f05b5018642ae604881fbadde2040595bf53e"
        self.assertEqual(hashlib.sha256(Tank(version=1).content).hexdigest(), checksum)

    def test_130_groups(self):
        """The sum is by another writer of the formats, of a pool that is created at moment 5, imported at 6, and synced at
        7. The last three uberblocks lie in slots 0 to 2."""
        checksum = "6f99c930a92c98708d22ef387c7bb268fe5d774ff34fa41d2fdf60846e7865c2"
        image = many_groups(6 * MIB, 5, 6, 7, range(10, 131))
        self.assertEqual(hashlib.sha256(image.content).hexdigest(), checksum)
        self.assertEqual(show_lines(mount(read_pool(image)))[2:5], ["group 130", "import 1", "blocks 384 used 4"])

    def test_the_blocks_of_a_long_record_are_used_if_it_is_whole(self):
        """Beside the four blocks of the tree."""
        logs = {(SECOND, *PARTS, THIRD): 5, (SECOND, *PARTS[:2]): 1, (SECOND, *PARTS[:1], THIRD): 1, tuple(PARTS): 3}
        for contents, blocks in logs.items():
            lines = show_lines(mount(read_pool(Tank().log_blocks(*contents))))
            self.assertIn(f"blocks 896 used {4 + blocks}", lines)

    def test_a_long_record_is_replayed(self):
        objects = mount(read_pool(Tank().log_blocks(*PARTS))).objects
        self.assertEqual(objects, {1: LONG[39:]})

    def test_edits_by_chance_are_judged(self):
        """Each edit of a log with long records, and what comes of it."""
        tank = Tank().log_blocks(SECOND, *PARTS, THIRD)
        before, kinds, names = mount(read_pool(tank)), set(), set()
        for at in range(300):
            edits = Edits(random.Random(at), tank.content, before)
            edits.edit()
            names.update(edits.names)
            kinds.update(Expected(edits.image).kinds())
        self.assertLessEqual({"age", "long_record", "log", "move", "records", "tear", "uberblock"}, names)
        self.assertLessEqual({"clean", "clean, with records", "7 Damaged 6", "7 Damaged 3"}, kinds)
