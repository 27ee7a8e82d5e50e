import contextlib
import io
import pathlib
import re
import sys
import tempfile
import time
import unittest

from tools import TOP, Failed, runner
from tools.checks import engine_checks, program_checks
from tools.harness.side_by_side import Part, SideBySide
from tools.rows.script_row import rows_with
from tools.rows.stopped_rows import Creates


# A program of tests: two make the same file, and one fails.
PROGRAM = """\
import sys
if sys.argv[1] == "--list":
    print("well: test\\nwell::too: test\\nwrong: test\\ntests: 3")
elif sys.argv[1] == "wrong":
    sys.exit("a fault")
else:
    open("file", "x")
"""


def part(name, code, limit=60):
    """A part that is a program in Python."""
    return Part(name, [sys.executable, "-c", code], limit)


def ends(*parts):
    """The status of parts that run side by side, and the lines that are told of them, without the seconds."""
    out = io.StringIO()
    with contextlib.redirect_stdout(out):
        with SideBySide() as side_by_side:
            for one in parts:
                side_by_side.start(one)
            status = side_by_side.end()
    return status, re.sub(r", \d+ s$", "", out.getvalue(), flags=re.M).splitlines()


class Parts(unittest.TestCase):
    def test_one_that_passes_tells_only_what_it_skips(self):
        status, lines = ends(part("one", "print('a line'); print('skipped two: no two')"))
        self.assertEqual((status, lines), (0, ["passed one", "skipped two: no two", "1 passed, 0 failed"]))

    def test_one_that_fails_tells_all_that_it_printed(self):
        status, lines = ends(part("one", "import sys; print('a line', flush=True); sys.exit('a fault')"))
        told = ["FAILED one", "a line", "a fault", "failed: one", "0 passed, 1 failed"]
        self.assertEqual((status, lines), (1, told))

    def test_one_that_is_ended_by_a_signal_tells_which(self):
        status, lines = ends(part("one", "import os; os.abort()"))
        self.assertEqual((status, lines), (1, ["FAILED one", "ended by SIGABRT", "failed: one", "0 passed, 1 failed"]))

    def test_a_long_text_has_its_front_and_its_end(self):
        _, lines = ends(part("one", "print('front'); print('x' * 100_000); print('end'); raise SystemExit(1)"))
        self.assertEqual((lines[1], lines[-3]), ("front", "end"))
        self.assertIn(".. 84010 characters ..", lines)

    def test_one_that_waits_fails_by_name(self):
        with tempfile.TemporaryDirectory() as room:
            # What it started itself ends, too.
            inner = f"import time, pathlib; time.sleep(2); pathlib.Path('{room}', 'later').touch()"
            outer = f"import subprocess, sys; subprocess.run([sys.executable, '-c', {inner!r}])"
            status, lines = ends(part("one", outer, 1), part("two", ""))
            self.assertEqual((status, lines[-1]), (1, "1 passed, 1 failed"))
            self.assertIn("failed: one", lines)
            self.assertTrue(any(line.startswith("one had no end after 1 seconds") for line in lines))
            time.sleep(2)
            self.assertFalse(pathlib.Path(room, "later").exists())


    def test_an_error_ends_all(self):
        started, out = time.monotonic(), io.StringIO()
        with contextlib.redirect_stdout(out), self.assertRaises(KeyboardInterrupt), SideBySide() as side_by_side:
            for number in range(20):
                side_by_side.start(part(str(number), "import time; time.sleep(60)"))
            raise KeyboardInterrupt
        self.assertLess(time.monotonic() - started, 30)
        self.assertEqual(out.getvalue(), "")


class Checks(unittest.TestCase):
    def test_each_check_is_a_tool_that_takes_its_words(self):
        for check in program_checks.all_checks():
            module = runner.module_of(runner.tools()[check.tool])
            words = runner.parser_of(check.tool, module).parse_args([sys.executable, *check.words])
            self.assertEqual(words.ztxg, sys.executable)

    def test_each_word_picks_scripts(self):
        for word in program_checks.STOPPED + program_checks.LACKING:
            self.assertTrue(rows_with(word) or word == Creates.TITLE, word)

    def test_what_is_missing_is_skipped_by_name(self):
        out, found = io.StringIO(), program_checks.shutil.which
        self.addCleanup(setattr, program_checks.shutil, "which", found)
        program_checks.shutil.which = lambda command: None
        with contextlib.redirect_stdout(out):
            names = [one.name for one in program_checks.parts("ztxg", TOP)]
        self.assertIn("skipped file_calls: cc not installed\n", out.getvalue())
        self.assertNotIn("file_calls", names)
        self.assertIn("commands", names)


class EngineChecks(unittest.TestCase):
    def test_the_list_of_a_program_is_whole(self):
        self.assertEqual(engine_checks.names_of(["one::two: test", "one::three: test", "tests: 2"]), ["one::two", "one::three"])
        wrong = [
            [],
            ["tests: 0"],
            ["one::two: test"],
            ["one::two: test", "tests: 2"],
            ["one::two: test", "one::three: ignored", "tests: 2"],
            ["one::two: test", "one::three: panics: a word", "tests: 2"],
        ]
        for lines in wrong:
            with self.assertRaises(Failed):
                engine_checks.names_of(lines)

    def test_each_test_is_run_in_a_folder_of_its_own(self):
        with tempfile.TemporaryDirectory() as room:
            program = pathlib.Path(room, "program")
            program.write_text(f"#!{sys.executable}\n{PROGRAM}")
            program.chmod(0o755)
            out = io.StringIO()
            with contextlib.redirect_stdout(out):
                status = engine_checks.main(program, "")
            lines = out.getvalue().splitlines()
            self.assertEqual((status, lines[-2:]), (1, ["failed: wrong", "2 passed, 1 failed"]))
            self.assertIn("a fault", lines)
            with contextlib.redirect_stdout(io.StringIO()):
                self.assertEqual(engine_checks.main(program, "well"), 0)
                with self.assertRaises(Failed):
                    engine_checks.main(program, "another")
