import pathlib
import tempfile
import unittest

from tools.repository.lanes import lanes


def said(gigabytes):
    """What the kernel says of a machine with so many free gigabytes."""
    return f"MemTotal: 99999999 kB\nMemAvailable: {gigabytes * 10**9 // 1024} kB\n"


class Lanes(unittest.TestCase):
    def groups(self, **files):
        """A folder with these files of a control group."""
        room = tempfile.TemporaryDirectory()
        self.addCleanup(room.cleanup)
        for name, text in files.items():
            pathlib.Path(room.name, name.replace("_", ".")).write_text(text)
        return pathlib.Path(room.name)

    def test_the_smaller_of_processors_and_a_fifth_of_the_free_gigabytes(self):
        for count, gigabytes, wanted in [(4, 23, 4), (4, 16, 3), (2, 64, 2), (1, 64, 1), (8, 41, 8), (4, 4, 1), (4, 1, 1)]:
            self.assertEqual(lanes(count, said(gigabytes), self.groups()), wanted)

    def test_a_control_group_may_leave_less(self):
        free = self.groups(memory_max="max\n", memory_stat="anon 7\n", cpu_max="max 100000\n")
        self.assertEqual(lanes(4, said(64), free), 4)
        small = self.groups(memory_max="16000000000\n", memory_stat="anon 2000000000\nfile 9\n")
        self.assertEqual(lanes(4, said(64), small), 2)
        slow = self.groups(cpu_max="250000 100000\n")
        self.assertEqual(lanes(4, said(64), slow), 2)
        self.assertEqual(lanes(4, said(64), self.groups(cpu_max="50000 100000\n")), 1)
