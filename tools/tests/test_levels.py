"""Objects of two levels of indirect blocks. What is expected of them was worked out by hand, from the format: an object
of more than 338,688 bytes has a top and strips of so many bytes, each with an indirect block."""

import hashlib
import random
import unittest

from tools.checks.hostile import Expected
from tools.checks.hostile_rows import all_rows
from tools.model import layout
from tools.model.charges import count_blocks, count_reads, estimate, tree_blocks
from tools.model.contents import Entry, digest
from tools.model.formats import TEXT, table
from tools.model.layout import (
    CHARGE,
    DATA,
    DIRECTORY,
    INDIRECT,
    ROOT,
    STRIP,
    TOP,
    data_number,
    levels_of,
    record_of,
    strip_number,
)
from tools.model.pool_bytes import log_block, numbers, read_record, record
from tools.model.pool_image import Damaged, Walk, import_line, mount, read_pool, show_lines
from tools.rows import full_images, hostile_trees
from tools.rows.bad_rows import BAD_LINES
from tools.rows.hostile_edits import Edits
from tools.rows.hostile_images import Tank
from tools.rows.hostile_levels import Tall, of_a_strip, tall
from tools.rows.level_rows import SYNCS, LevelBook
from tools.rows.script_row import told


def entry(*ops):
    return Entry(10, list(ops))


def write(place, count=4, number=1):
    return "w", number, place, b"x" * count


def length(new, number=1):
    return "l", number, new, b""


CREATE, REMOVE = ("c", 1, 0, b""), ("d", 1, 0, b"")


class Numbers(unittest.TestCase):
    def test_the_greatest_lengths_of_one_level_and_of_two(self):
        self.assertEqual((STRIP, layout.MAX_LENGTH), (338_688, 28_449_792))

    def test_the_document_has_it_and_the_kinds_of_its_blocks(self):
        self.assertTrue(f"{layout.MAX_LENGTH:,}" in TEXT, layout.MAX_LENGTH)
        kinds = [int(kind) for kind, *_ in table("| kind | what | group | number |")]
        self.assertEqual(kinds, [*range(1, 8)])

    def test_levels_of_lengths(self):
        self.assertEqual([levels_of(size) for size in (0, 338_688, 338_689, 28_449_792)], [1, 1, 2, 2])

    def test_numbers_of_strips_and_records(self):
        """Strip j of object n is n + 5,292 j, and its k-th record has 84 times that and k."""
        self.assertEqual([strip_number(1, strip) for strip in (0, 1, 2)], [1, 5_293, 10_585])
        self.assertEqual([data_number(1, at) for at in (0, 83, 84, 85, 168)], [84, 167, 444_612, 444_613, 889_140])
        self.assertEqual((strip_number(5_291, 83), data_number(5_291, 7_055)), (444_527, 37_340_351))
        for number, at in [(0, 0), (1, 83), (1, 84), (5_291, 84), (62, 7_055)]:
            self.assertEqual(record_of(data_number(number, at)), (number, at))

    def test_numbers_of_rows(self):
        self.assertEqual(told("l:1:MAX_LENGTH+1 l:1:7*2 d:1*0 c:2"), "l:1:28449793 l:1:7 l:1:7 c:2")

    def test_copies_of_a_word_stay_at_a_strip(self):
        self.assertIn(b"commit 0 @338689:a", BAD_LINES)


class Charges(unittest.TestCase):
    # The operations of a transaction, and its blocks.
    ROWS = [
        ([CREATE], 2),
        ([REMOVE], 2),
        ([length(0)], 5),
        ([write(0)], 5),
        ([write(4_030)], 6),
        ([write(0, 65_497)], 21),
        ([CREATE, write(338_684)], 7),
        ([write(338_687, 2)], 7),
        ([CREATE, write(0), write(338_688), write(677_376)], 17),
        ([("n", 5_292, 0, b"pond")], 1),
    ]

    def test_estimates(self):
        for ops, blocks in self.ROWS:
            self.assertEqual(estimate(entry(*ops)), blocks, ops)

    def test_the_charge_of_a_write_at_the_end_of_a_strip(self):
        self.assertEqual(CHARGE * estimate(entry(CREATE, write(338_684))), 28_672)


# Records of an object, as its strips count them.
LAST, NEXT = 83, 84


class Syncs(unittest.TestCase):
    """The blocks of syncs. Beside object 1 there is an object 2 without a block, in the same directory."""

    # What is done, the length before, the records with a block before, the operations, the blocks that are written and
    # the records with a block after.
    ROWS = [
        ("one level to two by a write", STRIP, {0, LAST}, [write(STRIP)], 5, {0, LAST, NEXT}),
        ("one level to two by a write over both strips", STRIP, {0}, [write(STRIP - 1, 2)], 7, {0, LAST, NEXT}),
        ("one level to two by a write far off", 4, {0}, [write(28_449_788)], 5, {0, 7_055}),
        ("one level to two by a length", 9, {0}, [length(STRIP + 1)], 3, {0}),
        ("the same without a record", 9, set(), [length(STRIP + 1)], 2, set()),
        ("a longer length", STRIP + 9, {0, NEXT}, [length(3 * STRIP)], 3, {0, NEXT}),
        ("a write into the first strip", STRIP + 9, {0, NEXT}, [write(5)], 5, {0, NEXT}),
        ("two levels to one by a cut in a record", STRIP + 9, {0, 1, NEXT}, [length(5)], 4, {0}),
        ("two levels to one at a strip's end", STRIP + 9, {0, NEXT}, [length(STRIP)], 3, {0}),
        ("two levels to one without a record", STRIP + 9, {NEXT}, [length(STRIP)], 2, set()),
        ("a cut at a strip's end", 3 * STRIP, {0, 84, 168}, [length(2 * STRIP)], 3, {0, 84}),
        ("a cut at a record's end", 2 * STRIP, {84, 85}, [length(STRIP + 4_032)], 4, {84}),
        ("a cut in a record", 2 * STRIP, {84, 85}, [length(STRIP + 4_033)], 5, {84, 85}),
        ("a cut that leaves no record of a strip", 2 * STRIP, {0, 85}, [length(STRIP + 4_032)], 3, {0}),
        ("a cut that leaves no record", 2 * STRIP, {85}, [length(STRIP + 4_032)], 2, set()),
        ("there and back in a group", STRIP, {0}, [length(400_000), length(STRIP)], 3, {0}),
        ("back and there in a group", 400_000, {0, NEXT}, [length(STRIP), length(400_000)], 3, {0}),
        ("a write that is cut off", STRIP, {0}, [write(STRIP), length(STRIP)], 3, {0}),
        ("a remove", 400_000, {0, NEXT}, [REMOVE], 2, None),
        ("a remove and a create", 400_000, {0, NEXT}, [REMOVE, CREATE], 2, set()),
        ("a remove, a create and a write", 400_000, {0, NEXT}, [REMOVE, CREATE, write(STRIP)], 5, {NEXT}),
    ]

    def test_blocks(self):
        for title, size, before, ops, blocks, after in self.ROWS:
            counted, records = count_blocks({1: bytes(size), 2: b""}, {1: before, 2: set()}, [entry(*ops)])
            self.assertEqual((counted, records.get(1)), (blocks, after), title)

    def test_blocks_of_several_entries_are_those_of_one(self):
        for title, size, before, ops, blocks, _ in self.ROWS:
            entries = [entry(op) for op in ops]
            self.assertEqual(count_blocks({1: bytes(size), 2: b""}, {1: before}, entries)[0], blocks, title)

    def test_no_sync_takes_more_than_its_charge(self):
        for title, _, _, ops, blocks, _ in self.ROWS:
            self.assertLessEqual(blocks, estimate(entry(*ops)), title)

    def test_an_indirect_block_without_a_pointer_keeps_its_top(self):
        """As an image of another program may have it: a length writes the top, the directory and the root. A cut takes
        it away."""
        rows = [({0}, 3 * STRIP, 3), ({1}, 3 * STRIP, 3), (set(), 3 * STRIP, 2)]
        for strips, new, blocks in [*rows, ({0}, STRIP + 4_032, 3), ({1}, STRIP + 4_032, 2)]:
            counted, _ = count_blocks({1: bytes(2 * STRIP)}, {1: set()}, [entry(length(new))], {1: strips})
            self.assertEqual(counted, blocks, (strips, new))

    def test_reads_of_a_plan(self):
        """The top, the strips that are looked at, and the records that are written in part."""
        rows = [
            ("a write into a record", STRIP + 9, {0, 84}, [write(STRIP)], 3),
            ("a write over a whole record", 2 * STRIP, {0, 84}, [write(STRIP, 4_032)], 2),
            ("a write into a new strip", STRIP + 9, {0, 84}, [write(2 * STRIP)], 1),
            ("a write of one level to two", STRIP, {0}, [write(STRIP)], 0),
            ("a write over both strips", STRIP, {0, 83}, [write(STRIP - 1, 2)], 2),
            ("a longer length with one level", 9, {0}, [length(10)], 1),
            ("a longer length to two levels", 9, {0}, [length(STRIP + 1)], 0),
            ("a cut to one level", 3 * STRIP, {0, 84, 168}, [length(STRIP)], 4),
            ("a cut at a strip's end", 3 * STRIP, {0, 84, 168}, [length(2 * STRIP)], 2),
            ("a remove", 3 * STRIP, {0, 84, 168}, [REMOVE], 4),
            ("a remove of an object without a block", 3 * STRIP, set(), [REMOVE], 0),
        ]
        for title, size, before, ops, reads in rows:
            self.assertEqual(count_reads({1: bytes(size)}, {1: before}, [entry(*ops)]), reads, title)

    def test_blocks_of_a_tree(self):
        """Two records in two strips and a top; an object of one strip; one without a block; a directory and a root."""
        objects = {1: bytes(STRIP + 9), 2: bytes(STRIP), 3: bytes(STRIP + 1)}
        self.assertEqual(tree_blocks(objects, {1: {0, 84}, 2: {83}, 3: set()}), 2 + 2 + 1 + 1 + 1 + 2)


class Images(unittest.TestCase):
    def test_worked_images_are_judged_as_they_say(self):
        for title, make, line, *_ in all_rows():
            self.assertEqual(Expected(make()).check().out, [line], title)

    def test_worked_images_with_several_damages_are_judged_as_they_say(self):
        for title, make, lines in hostile_trees.SEVERAL:
            self.assertEqual(Expected(make()).check_all().out, lines, title)

    def test_worked_images_of_full_pools_are_judged_as_they_say(self):
        for title, make, line, no_room in full_images.ROWS:
            expected = Expected(make())
            self.assertEqual(expected.check().out, [line], title)
            self.assertEqual(expected.import_answer() == no_room, no_room is not None, title)

    def test_the_places_of_the_second_strip(self):
        nodes = [(node.kind, node.number, node.address) for node in mount(read_pool(Tall())).nodes]
        wanted = [(ROOT, 0, 4_231_168), (DIRECTORY, 0, 4_227_072), (TOP, 1, 4_222_976)]
        wanted += [(INDIRECT, 1, 4_202_496), (DATA, 167, 4_198_400)]
        wanted += [(INDIRECT, 5_293, 4_218_880), (DATA, 444_612, 4_214_784)]
        self.assertEqual(nodes, wanted)

    def test_what_is_mounted(self):
        mounted = mount(read_pool(Tall()))
        self.assertEqual(mounted.objects, {1: bytes(338_684) + b"abcdwxyz"})
        wanted = ["name tank", "guid 77", "group 10", "import 1", "blocks 896 used 7", "records 0", "objects 1"]
        self.assertEqual(show_lines(mounted), [*wanted, "1 338692"])
        self.assertEqual(import_line(mounted), "synced 14 open 15 records 0")

    def test_all_damages_in_the_order_of_the_walk(self):
        """Of the first strip, then of the second one's record; and of a top without what lies below it."""
        image = tall(second_data=b"wxyz\1")
        image.put(4_202_496, bytes(512))
        lines = ["damaged 4 4202496", "damaged 5 4214784"]
        self.assertEqual(Expected(image).check_all().out, lines)
        image.put(4_222_976, bytes(512))
        self.assertEqual(Expected(image).check_all().out, ["damaged 7 4222976"])

    def test_strips_with_a_block(self):
        image = tall(second=lambda data: b"")
        walk = Walk(image, image.active())
        self.assertEqual((walk.records, walk.strips), ({1: {83}}, {1: {0, 1}}))

    def test_a_pool_of_version_1_is_imported(self):
        mounted = mount(read_pool(of_a_strip(Tank(version=1))))
        self.assertEqual(import_line(mounted), "synced 13 open 14 records 0")
        self.assertEqual(show_lines(mounted)[-1], "1 338688")

    def test_a_top_in_version_1_is_damaged(self):
        image = Tall(version=1)
        with self.assertRaises(Damaged) as caught:
            Walk(image, image.active())
        self.assertEqual((caught.exception.kind, caught.exception.address), (DIRECTORY, 4_227_072))

    def test_limits_of_records_by_version(self):
        """In a log of version 1 each operation ends within a strip."""
        ops = {write(338_684): True, length(338_688): True, write(338_685): False, length(338_689): False}
        for op, is_old in ops.items():
            content = record(9, 0, [op])[4:]
            self.assertEqual(read_record(content, 1) is not None, is_old, op)
            self.assertIsNotNone(read_record(content, 2), op)
        self.assertIsNotNone(read_record(record(9, 0, [write(28_449_788)])[4:]))
        self.assertIsNone(read_record(record(9, 0, [write(28_449_789)])[4:]))

    def test_blocks_that_an_import_needs(self):
        """A record, its indirect block, the top, the directory and the root, and the next log block."""
        image = Tall()
        image.put(4_194_304, log_block(77, 11, 0, 1, 4_194_304, record(11, 0, [write(STRIP)])))
        self.assertEqual(mount(read_pool(image)).needed, 5 + 1)

    def test_edits_by_chance_are_judged(self):
        pool = Tall()
        before, kinds, raised = mount(read_pool(pool)), set(), set()
        for at in range(250):
            edits = Edits(random.Random(at), pool.content, before)
            edits.edit()
            expected = Expected(edits.image)
            kinds.update(expected.kinds())
            if edits.names[0] in ("raise_object", "lower_object"):
                raised.update((edits.names[0], kind) for kind in expected.kinds())
        wanted = {f"7 Damaged {kind}" for kind in (ROOT, DIRECTORY, INDIRECT, DATA, TOP)}
        self.assertLessEqual({"clean", *wanted}, kinds)
        self.assertLessEqual({("raise_object", "7 Damaged 4"), ("lower_object", "clean")}, raised)

    def test_objects_that_are_raised_are_judged(self):
        pool, kinds = of_a_strip(Tank()), set()
        before = mount(read_pool(pool))
        for at in range(40):
            edits = Edits(random.Random(at), pool.content, before)
            edits.raise_object()
            kinds.update(Expected(edits.image).kinds())
        self.assertLessEqual({"clean", "7 Damaged 3", "7 Damaged 4"}, kinds)


class Digests(unittest.TestCase):
    def test_of_an_object_of_two_levels(self):
        """Its bytes follow its number and its length."""
        content = bytes(338_684) + b"abcdwxyz"
        text = bytes.fromhex("04000000") + b"tank" + bytes.fromhex("01000000 01000000 042b050000000000")
        self.assertEqual(digest(b"tank", {1: content}), hashlib.sha256(text + content).hexdigest())
        self.assertEqual(numbers(338_692), bytes.fromhex("042b050000000000"))


class Rows(unittest.TestCase):
    def test_the_blocks_of_syncs_that_change_levels(self):
        for title, before, blocks in SYNCS:
            book = LevelBook(title)
            book.play(before)
            self.assertEqual(book.run.sync.blocks, blocks, title)
