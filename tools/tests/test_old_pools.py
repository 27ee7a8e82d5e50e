"""Pools of version 1, and the images of crashes of their imports. What is expected was worked out by hand, from the
format."""

import hashlib
import unittest

from tools.checks.old_pools import FLUSH, calls_of, crashes
from tools.model.charges import estimate
from tools.model.pool_image import free_places, import_line, mount, read_pool
from tools.rows.old_pools import FULL, POOLS

# The sums of the files that a program of version 1 made by these scripts, after a create of the pool tank with guid 77
# on 8,388,608 bytes. The first script is this; the others go on with a log write after each commit, and a log flush.
#
#     import 1048576
#     lock 1 1 w 0 338688
#     begin 1 c:1 w:1:338684:4
#     commit 0 abcd
#     sync
SUMS = [
    "eb40925ee10a901f27c85a245b66faec8573b75098929d9229e651cc11cf2718",
    # w:1:338682:4 with the bytes wxyz; c:2 l:2:338688
    "984b9b06c2b8e823f9cef9a64f06369e1802676e24a4efdf847ad2b73a21ab19",
    # l:1:4033; n:4 with the name pond
    "94eb136efbec66b0c43cb7641bad88f39b4b3076d0dd807978cc15120dbbdd53",
]


class Pools(unittest.TestCase):
    def test_a_program_of_version_1_wrote_them(self):
        self.assertEqual([hashlib.sha256(make().content).hexdigest() for _, make, *_ in POOLS][:3], SUMS)

    def test_what_they_mount(self):
        for title, make, name, records, objects in POOLS:
            mounted = mount(read_pool(make()))
            self.assertEqual((mounted.name, mounted.records, mounted.objects), (name, records, objects), title)
            self.assertEqual(import_line(mounted), f"synced 13 open 14 records {records}", title)
            self.assertEqual((mounted.uberblock.group, mounted.uberblock.version), (9, 1), title)

    def test_full_pools_have_less_room_than_is_reserved_now(self):
        """What is free, what is reserved for the log's record, and what an import needs: a record, its indirect block,
        the directory, the root and the next log block."""
        found = []
        for title, make, name, records, objects in FULL:
            read = read_pool(make())
            mounted, (piece,) = mount(read), read.chain
            self.assertEqual((mounted.name, mounted.records, mounted.objects), (name, records, objects), title)
            self.assertEqual(mounted.uberblock.version, 1, title)
            found.append((len(free_places(mounted)), estimate(piece.entries[0]), mounted.needed))
        self.assertEqual(found, [(383, 457, 5), (85, 85, 5)])

    def test_the_calls_of_an_import_without_records(self):
        """Group 13 has slot 13 of each label."""
        configs = [("write", place, 4_096) for place in (16_384, 7_880_704, 278_528, 8_142_848)]
        uberblocks = [("write", place, 1_024) for place in (144_384, 406_528, 8_008_704, 8_270_848)]
        wanted = [FLUSH, FLUSH, *configs[:2], FLUSH, *uberblocks, FLUSH, *configs[2:], FLUSH]
        self.assertEqual(calls_of(mount(read_pool(POOLS[0][1]()))), wanted)

    def test_the_blocks_of_an_import_with_records(self):
        """A record of object 1, its indirect block, the directory and the root. They lie behind the tree and the second
        log block."""
        calls = calls_of(mount(read_pool(POOLS[1][1]())))
        self.assertEqual(calls[:6], [FLUSH, *(("write", 4_218_880 + 4_096 * at, 4_096) for at in range(4)), FLUSH])


class Crashes(unittest.TestCase):
    def test_images(self):
        """A write, a flush, and a write of an uberblock."""
        calls = [(1, b"x", False), None, (2, b"yz", True)]
        found = [
            (made, letters, bytes(image.content), stands) for made, letters, image, stands in crashes(b"abcd", calls)
        ]
        wanted = [
            (0, "", b"abcd", False),
            (1, "k", b"axcd", False),
            (1, "l", b"abcd", False),
            (1, "t", b"a\xaacd", False),
            (2, "", b"axcd", False),
            (3, "k", b"axyz", True),
            (3, "l", b"axcd", False),
            (3, "t", b"ax\xaa\xaa", False),
        ]
        self.assertEqual(found, wanted)
        self.assertTrue(all(stands for *_, stands in list(crashes(b"abcd", [*calls, None]))[-1:]))
