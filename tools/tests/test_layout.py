import unittest

from tools.model.layout import AREA, ARRAY_AT, BLOCK, MIB, block_count, is_block_address, is_geometry
from tools.model.layout import label_places, slot_places


class Geometry(unittest.TestCase):
    """The numbers of docs/FORMATS.md, 1 and 4."""

    def test_sizes(self):
        self.assertTrue(is_geometry(6_291_456) and is_geometry(1_073_741_824))
        self.assertFalse(is_geometry(6_291_456 - 262_144) or is_geometry(1_073_741_824 + 262_144))
        self.assertFalse(is_geometry(8 * MIB + 512))

    def test_blocks(self):
        counts = {6 * MIB: 384, 8 * MIB: 896, 2**30: 260_992}
        self.assertEqual({size: block_count(size) for size in counts}, counts)

    def test_block_addresses(self):
        last = 5_763_072
        self.assertTrue(is_block_address(6 * MIB, 4_194_304) and is_block_address(6 * MIB, last))
        for address in (0, AREA - BLOCK, AREA + 1, last + BLOCK):
            self.assertFalse(is_block_address(6 * MIB, address))

    def test_labels_of_8_mib(self):
        self.assertEqual(label_places(8 * MIB), [0, 262_144, 7_864_320, 8_126_464])
        self.assertEqual(slot_places(8 * MIB, 8)[0], 139_264)
        self.assertEqual(slot_places(8 * MIB, 128 + 8)[0], 139_264)
        self.assertEqual(slot_places(8 * MIB, 127)[3] - 8_126_464, ARRAY_AT + 127 * 1_024)
