"""Worked frames, asked of the server that stands in for the program's, which reads the pages of formats alone, and how
processes end that open no pool."""

import shutil
import struct
import unittest

from tools import TOP, Failed
from tools.checks.frame_rows import difference
from tools.harness.pool_files import pool_file
from tools.harness.program import Ran
from tools.harness.served import Served
from tools.model.frames import Answer, Request, Server, read_answers, requests_frame, unopened_frame
from tools.rows import frame_rows

STAND_IN = str(TOP / "clients/stand_in")


def answers_of(server, asked):
    requests = [Request(number, call, needs) for number, (call, needs, _) in enumerate(asked, 1)]
    return read_answers(server.answer(requests_frame(requests)))


class Rows(unittest.TestCase):
    def test_rows_that_need_no_limit(self):
        for title, frames, *_ in [row for row in frame_rows.ROWS if not row.options] + frame_rows.SOON[:1]:
            server = Server()
            for asked in frames:
                self.assertIsNone(difference(asked, answers_of(server, asked)), title)

    def test_records(self):
        server = Server()
        for content, wanted in frame_rows.RECORDS:
            found = read_answers(server.answer(frame_rows.transaction(content)))
            is_right = found == wanted if isinstance(wanted, int) else frame_rows.is_wanted(wanted, found[0])
            self.assertTrue(is_right, content[:50].hex())

    def test_a_stream(self):
        """How many bytes each frame is answered, as a test of an older program had it."""
        server = Server()
        self.assertEqual([len(server.answer(content)) for content in frame_rows.STREAM], [123, 12, 48, 12])

    def test_the_first_difference_is_told(self):
        asked = [("name", (), (10, b"\4\0\0\0tank")), ("transact", [], frame_rows.committed(0, 9))]
        name, receipt = Answer(1, 10, b"\4\0\0\0tank"), Answer(2, 1, struct.pack("<QQ", 0, 9))
        self.assertIsNone(difference(asked, [name, receipt]))
        self.assertIn("transact", difference(asked, [name, receipt._replace(content=struct.pack("<QQ", 1, 9))]))
        self.assertIn("name", difference(asked, [name._replace(number=2), receipt]))
        self.assertIn("answered 7", difference(asked, 7))
        self.assertIsNotNone(difference(asked, [name]))


class Openings(unittest.TestCase):
    def judge(self, is_right, wanted, status, opening, errors):
        ran = Ran(status, unopened_frame(opening), errors.encode())
        self.assertEqual(frame_rows.is_unopened(wanted, "tank.pool", ran), is_right, ran)

    def test_a_file_that_cannot_be_used(self):
        wanted = frame_rows.MISSING
        self.assertEqual(wanted, (0, 0, 0, 2, "No such file or directory (os error 2)"))
        said = "ztxg: cannot use tank.pool\nztxg: cause: No such file or directory (os error 2)\n"
        self.judge(True, wanted, 3, wanted, said)
        self.judge(False, wanted, 1, wanted, said)
        self.judge(False, wanted, 3, wanted._replace(error=0), said)
        self.judge(False, wanted, 3, wanted, said.splitlines(keepends=True)[0])

    def test_a_damaged_pool(self):
        """docs/FORMATS.md, 4: the address of the first data block. The cause is any, and the same in both places."""
        wanted, said = frame_rows.DAMAGED, "ztxg: refused 7 Damaged 5 4198400\nztxg: cause: a block is damaged\n"
        opening = wanted._replace(cause="a block is damaged")
        self.judge(True, wanted, 1, opening, said)
        self.judge(False, wanted, 1, opening._replace(cause="a block"), said)
        self.judge(False, wanted, 1, opening._replace(address=4_202_496), said)
        self.judge(False, wanted, 1, opening._replace(cause=""), said.splitlines(keepends=True)[0])

    def test_a_process_that_opens_no_pool(self):
        """The stand-in says why, and a program that writes no opening has its status."""
        with pool_file() as file:
            for program, told in [(STAND_IN, "cannot use"), (shutil.which("false"), "nothing .* ends with 1")]:
                with self.assertRaisesRegex(Failed, told):
                    Served(program, file)
