import json
import random
import shutil
import unittest
import xml.etree.ElementTree as tree

from tools.harness import shims
from tools.harness.power_cuts import Call, Disk, OneFile, cuts
from tools.harness.writers import PlainFile, Sqlite
from tools.pictures import draw_losses


class Coins:
    """A chance that falls as it is told."""

    def __init__(self, *falls):
        self.falls = list(falls)

    def random(self):
        return self.falls.pop(0)


KEPT, LOST = 0.1, 0.9
OLD, NEW = b"o" * 512, b"n" * 512


def write(place, content, file="file"):
    return Call("write", file, place, len(content), content)


def call(name, size=0, file="file"):
    return Call(name, file, 0, size, b"")


def after(calls, *falls, before=OLD * 2):
    """What a file holds after these calls and a cut."""
    disk = Disk({"file": before})
    for one in calls:
        disk.make(one)
    return disk.after_cut(Coins(*falls), 0.5).get("file")


class Cuts(unittest.TestCase):
    def test_a_sector_is_stored_or_lost(self):
        calls = [write(0, NEW * 2)]
        for falls, left in [((KEPT, KEPT), NEW * 2), ((LOST, KEPT), OLD + NEW), ((LOST, LOST), OLD * 2)]:
            self.assertEqual(after(calls, *falls), left)

    def test_a_sector_is_as_the_file_has_it_at_the_write(self):
        calls = [write(0, b"a"), write(1, b"b")]
        self.assertEqual(after(calls, LOST, KEPT)[:3], b"abo")
        self.assertEqual(after(calls, KEPT, LOST)[:3], b"aoo")

    def test_a_flush_that_has_ended_stores_what_was_written_before_it(self):
        calls = [write(0, NEW), call("fsync"), write(512, NEW), call("synced")]
        self.assertEqual(after(calls, LOST), NEW + OLD)
        self.assertEqual(after(calls[:3], LOST, LOST), OLD * 2)

    def test_lengths_and_removals_are_stored(self):
        self.assertEqual(after([write(1_024, NEW)], LOST), OLD * 2 + bytes(512))
        self.assertEqual(after([write(0, NEW * 2), call("size", 512)], KEPT), NEW)
        self.assertEqual(after([write(0, NEW), call("removed"), write(0, b"x")], KEPT), b"x")
        self.assertIsNone(after([call("removed")]))

    def test_a_shorter_file_keeps_what_is_being_flushed(self):
        file = OneFile(OLD * 2)
        for place in (512, 0):
            file.write(place, NEW)
        file.flushing = 2
        file.resize(512)
        file.end_flush()
        self.assertEqual(bytes(file.stored), NEW)

    def test_outputs_before_a_cut_are_counted(self):
        calls = [write(0, NEW), call("output", file=""), write(512, NEW), call("output", file="")]
        found = list(cuts({"file": OLD * 2}, calls, 100, random.Random(1)))
        self.assertEqual({outputs for outputs, _ in found}, {0, 1, 2})
        for outputs, files in found:
            self.assertTrue(outputs or files["file"][512:] == OLD)


@unittest.skipUnless(shutil.which("cc"), "there is no cc")
class Losses(unittest.TestCase):
    def test_programs_lose_writes_that_they_do_not_flush(self):
        contents = [bytes([number]) * 512 for number in range(1, 21)]
        programs = [(PlainFile("", False), PlainFile("", True)), (Sqlite("", "OFF"), Sqlite("", "FULL"))]
        with shims.compiled("calls") as shim:
            for pair in programs:
                taken = [draw_losses.take(program, shim, contents, 40, random.Random(1)) for program in pair]
                self.assertGreater(sum(taken[0]["lost"]), 40)
                self.assertEqual((sum(taken[1]["lost"]), taken[1]["damaged"]), (0, 0))
                self.assertGreater(sum(taken[1]["acknowledged"]), 200)


class Pictures(unittest.TestCase):
    def test_the_picture_is_that_of_the_data(self):
        data = json.loads(draw_losses.DATA.read_text())
        picture = draw_losses.drawn(data)
        self.assertEqual(draw_losses.DATA.with_suffix(".svg").read_text(), picture)
        texts = [node.text for node in tree.fromstring(picture).iter("{http://www.w3.org/2000/svg}text")]
        for taken in data["drawn"]:
            self.assertEqual({len(taken["acknowledged"]), len(taken["lost"])}, {data["cuts"]})
            self.assertIn(f"{sum(taken['lost']):,} of {sum(taken['acknowledged']):,} writes", texts)
