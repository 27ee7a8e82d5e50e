import os
import sys
import unittest

from tools import Failed
from tools.harness.program import Conversation, Ran, measure, peak_memory, run

ECHO = "import sys\nfor line in sys.stdin: print(line.strip()[::-1], flush=True)\nsys.exit(3)"


# So much time that a busy machine has it.
SECONDS = 600


class Ending:
    """This process, which ends at the last of these polls: so no other one has to be met in time."""

    def __init__(self, polls):
        self.pid, self.polls = os.getpid(), iter(polls)

    def poll(self):
        return next(self.polls)


def python(code):
    return [sys.executable, "-c", code]


class Runs(unittest.TestCase):
    """Runs of Python itself."""

    def test_lines_in_and_what_is_printed(self):
        self.assertEqual(run(python(ECHO), ["abc", b"de"]).in_lines(), (3, ["cba", "ed"], []))

    def test_a_run_that_does_not_end(self):
        found = run(python("input()\nimport time\ntime.sleep(60)"), ["x"], seconds=0.2)
        self.assertEqual(found, Ran(None, b"", b"no end after 0.2 seconds"))

    def test_each_answer_comes_before_the_next_line(self):
        with Conversation(python(ECHO), SECONDS) as running:
            self.assertEqual([running.ask(line) for line in ["abc", "de"]], ["cba\n", "ed\n"])
            self.assertEqual(running.end(), 3)

    def test_what_a_measured_run_prints(self):
        printed, cost = measure(python("print(len(input()))"), ["abc"])
        self.assertEqual(printed, "3\n")
        self.assertGreater(cost.seconds, 0)
        with self.assertRaises(Failed):
            measure(python("import sys\nsys.exit(1)"))

    def test_the_most_memory_of_a_run(self):
        least = 50_000_000
        held = b"x" * least
        self.assertGreater(peak_memory(Ending([None, None, 0])), len(held))
