import unittest

from tools.harness.terminal import screen


class Screens(unittest.TestCase):
    """What VT100 terminals show, as `man console_codes` has it."""

    def test_lines(self):
        for text, lines in [
            (b"", [""]),
            (b"one\r\ntwo\r\n", ["one", "two", ""]),
            (b"12 percent\r8", ["82 percent"]),
            (b"12 percent\r\x1b[K8", ["8"]),
            (b"12 percent\r\x1b[K", [""]),
            (b"a line\x1b[K", ["a line"]),
            (b"12\r\x1b[Ka text\r\n8\r\x1b[K", ["a text", ""]),
        ]:
            with self.subTest(text=text):
                self.assertEqual(screen(text), lines)
