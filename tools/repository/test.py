"""Runs the tests of the tools, by `unittest` and without a built program."""

import sys
import unittest

from tools import TOP


def add_arguments(parser):
    parser.add_argument("words", metavar="WORD", nargs="*", help="only tests whose names have one of these words")


def main(words=()):
    loader = unittest.TestLoader()
    loader.testNamePatterns = [f"*{word}*" for word in words] or None
    suite = loader.discover(str(TOP / "tools/tests"), top_level_dir=str(TOP))
    result = unittest.TextTestRunner(sys.stdout).run(suite)
    return int(not result.wasSuccessful() or result.testsRun == 0)
