import os
import pathlib
import shutil
import subprocess
import tempfile
import unittest

from tools import TOP

# What stands in the place of the tools and of `rt`: they print their words, and end as the files of this name say. The
# tool that measures runs its command, and says something behind its output.
TOOLS = """\
import pathlib, subprocess, sys
if sys.argv[1] == "gate_costs":
    status = subprocess.run(sys.argv[2:]).returncode
    print("gate: its costs")
    sys.exit(status)
if sys.argv[1] != "lanes":
    print("tools", *sys.argv[1:])
print(pathlib.Path(f"{sys.argv[1]}.out").read_text(), end="")
sys.exit(int(pathlib.Path(f"{sys.argv[1]}.status").read_text()))
"""
RT = """\
#!/bin/sh
echo "rt $* with ${RT_JOBS-none}"
cat rt.out
exit $(cat rt.status)
"""


class Gate(unittest.TestCase):
    def setUp(self):
        room = tempfile.TemporaryDirectory()
        self.addCleanup(room.cleanup)
        self.top = pathlib.Path(room.name)
        for name in (".ci", "tools", "bin", "crates/ztxg/out"):
            (self.top / name).mkdir(parents=True)
        shutil.copy2(TOP / ".ci/run", self.top / ".ci")
        (self.top / "tools/__main__.py").write_text(TOOLS)
        (self.top / "bin/rt").write_text(RT)
        (self.top / "bin/rt").chmod(0o755)
        (self.top / "crates/ztxg/out/ztxg").touch()
        self.say("check", "check: all is right\n")
        self.say("lanes", "3\n")
        self.say("rt", "7 passed, 0 failed\n")
        self.say("program_checks", "20 passed, 0 failed\n")

    def say(self, name, out, status=0):
        (self.top / f"{name}.out").write_text(out)
        (self.top / f"{name}.status").write_text(str(status))

    def run_gate(self):
        """The status of the gate, and its lines."""
        path = f"{self.top}/bin:{os.environ['PATH']}"
        ran = subprocess.run([self.top / ".ci/run"], capture_output=True, text=True, env={**os.environ, "PATH": path})
        self.assertEqual(ran.stderr, "")
        return ran.returncode, ran.stdout.splitlines()

    def test_all_parts_are_counted(self):
        status, lines = self.run_gate()
        wanted = ["tools check", "check: all is right", "rt ci with 3", "7 passed, 0 failed"]
        wanted += ["gate: its costs", "tools program_checks crates/ztxg/out/ztxg", "20 passed, 0 failed", "28 passed, 0 failed"]
        self.assertEqual((status, lines), (0, wanted))

    def test_each_part_may_fail_and_the_others_run(self):
        for name, out, last in [
            ("check", "a fault\n", "27 passed, 1 failed"),
            ("rt", "5 passed, 2 failed\n", "26 passed, 2 failed"),
            ("rt", "7 passed, 0 failed\n", "28 passed, 1 failed"),
            ("rt", "killed\n", "21 passed, 1 failed"),
            ("program_checks", "19 passed, 1 failed\n", "27 passed, 1 failed"),
        ]:
            self.setUp()
            self.say(name, out, 1)
            status, lines = self.run_gate()
            self.assertEqual((status, lines[-1]), (1, last))
            self.assertEqual(sum(line.startswith(("tools check", "rt ci", "tools program")) for line in lines), 3)

    def test_no_program_is_a_failure(self):
        os.remove(self.top / "crates/ztxg/out/ztxg")
        status, lines = self.run_gate()
        self.assertEqual((status, lines[-1]), (1, "8 passed, 1 failed"))
        self.assertTrue(lines[-2].startswith("rt ci left no crates/ztxg/out/ztxg"))

    def test_it_runs_without_a_number_of_lanes(self):
        self.say("lanes", "", 1)
        status, lines = self.run_gate()
        self.assertEqual((status, lines[-1]), (0, "28 passed, 0 failed"))
        self.assertIn("rt ci with none", lines)
