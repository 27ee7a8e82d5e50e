import os
import pathlib
import subprocess
import sys
import tempfile
import time
import unittest
from unittest import mock

from tools.repository import gate_costs
from tools.repository.gate_costs import Process, Record, Run, Stat, Work, longest_chain, waits_of, work_of

CRATES = "/home/x/crates"
RATTLE = "/opt/rattle/bin/rattle"
STATIC = ["--antt-project", "/opt/rattle/rattle/logic/antt-project.json", "--logic-built", "/opt/rattle/logic_built"]
# What `rt` starts before it becomes the program behind its words.
STARTING = ["/usr/bin/python3.11", "-ISc", "import os, sys; os.execvp(sys.argv[1], sys.argv[1:])"]
LINK = ["/opt/rattle/bin/rattle-link", "--target", "x86_64-unknown-linux-gnu", "--toolchain", "/opt/rattle/toolchain"]
AS_NOBODY = ["setpriv", "--reuid=65534", "--regid=65534", "--clear-groups", "--no-new-privs"]


def called(verb, crate, *words):
    return [RATTLE, verb, "--crate-name", crate, "src/lib.rt", *STATIC, "--links", f"{crate}=", *words]


# Processes of a run of `rt ci` with three small crates: the words and the folder of each, and what it works at.
RECORDED = [
    (["python3", "/opt/rattle/bin/rt", "ci"], "/home/x", None),
    (["sh", "-c", "read _; kill -9 0"], "/home/x", None),
    ([RATTLE, "fmt", "--check", f"{CRATES}/hello/src/main.rt"], "/home/x", None),
    (
        called("build", "base", "--jobs", "2", "--statements", "-o", f"{CRATES}/base/out/rlib/base.rlib"),
        f"{CRATES}/base",
        Work("base", "proof", "check", 2),
    ),
    (
        [*STARTING, *called("build", "pair", "--jobs", "1", "--statements", "-o", f"{CRATES}/pair/out/rlib/pair.rlib")],
        f"{CRATES}/pair",
        Work("pair", "proof", "check"),
    ),
    (
        called("build", "pair", "--test", "--jobs", "1", "--backend", "llvm", "-o", "out/pair_tests.o"),
        f"{CRATES}/pair",
        Work("pair", "tests", "check"),
    ),
    ([*LINK, "-o", "out/pair_tests", "out/pair_tests.o"], f"{CRATES}/pair", Work("pair", "tests", "link")),
    (
        called("check", "base", "--jobs", "1", "--incremental", "/tmp/rt-edits-bm9_vdn2"),
        "/tmp/rt-edit-blp70mrj",
        Work("base", "edits", "check"),
    ),
    (called("check", "pair", "--jobs", "1"), "/tmp/rt-edit-1ur126g7", Work("pair", "edits", "check")),
    (
        called("check", "hello", "--jobs", "1", "-o", "/tmp/rt-proved-mvp8m8ej/checked", "--empty-contracts"),
        f"{CRATES}/hello",
        Work("hello", "proof", "check"),
    ),
    (
        called("build", "hello", "--crate-checked", "/tmp/rt-proved-mvp8m8ej/checked", "--backend", "llvm"),
        f"{CRATES}/hello",
        Work("hello", "proof", "build by LLVM"),
    ),
    (
        called("build", "hello", "--crate-checked", "/tmp/rt-proved-mvp8m8ej/checked", "--backend", "rattle"),
        f"{CRATES}/hello",
        Work("hello", "proof", "build by Rattle's own compiler"),
    ),
    ([*LINK, "-o", "out/hello.by-rattle", "out/hello.by-rattle.o"], f"{CRATES}/hello", Work("hello", "proof", "link")),
    ([*LINK, "-o", "out/some_tests", "out/some_tests.o"], f"{CRATES}/some_tests", Work("some_tests", "proof", "link")),
    (
        ["sh", "-c", 'ulimit -c 0; exec "$@"', "", *AS_NOBODY, "/tmp/rt-run-gt_kpsdn/bin/hello", "a", "word"],
        "/tmp/rt-run-gt_kpsdn/data",
        Work("hello", "runs", "program"),
    ),
    (
        ["/opt/rattle/bin/rattle-test", "--seconds", "60", "/tmp/rt-run-gt_kpsdn/bin/some_tests_tests"],
        "/tmp/rt-run-gt_kpsdn/data",
        Work("some_tests", "runs", "tests"),
    ),
    (["/tmp/rt-run-gt_kpsdn/bin/some_tests"], "/tmp/rt-run-gt_kpsdn/data", Work("some_tests", "runs", "program")),
]


class Reading(unittest.TestCase):
    """What is read of processes."""

    def test_what_each_process_works_at(self):
        for words, folder, work in RECORDED:
            self.assertEqual(work_of(words, folder), work, words)

    def test_a_line_is_read_by_the_numbers_of_its_fields(self):
        # As proc(5) numbers them: 4 the parent, 14 to 17 the times, 22 the start, 24 the pages of memory.
        fields = [str(1000 + number) for number in range(53)]
        fields[1:4] = ["77", "(a) (b c)", "S"]
        found = gate_costs.stat_of(" ".join(fields[1:]) + "\n")
        seconds, start = (1014 + 1015 + 1016 + 1017) / gate_costs.TICKS, 1022 / gate_costs.TICKS
        self.assertEqual(found, Stat(1004, seconds, start, 1024 * gate_costs.PAGE))

    def test_a_line_of_this_process(self):
        subprocess.run([sys.executable, "-c", "sum(range(3_000_000))"], check=True)
        found = gate_costs.read_stats()[os.getpid()]
        self.assertEqual(found.parent, os.getppid())
        self.assertAlmostEqual(found.seconds, sum(os.times()[:4]), delta=0.1)
        self.assertLess(found.start, time.clock_gettime(time.CLOCK_BOOTTIME))

    def test_crates_and_the_libraries_among_them(self):
        text = "# Crates\nlow: std\n\nhigh may_wait=2: low sha2 # above low\ntop: high low\n"
        self.assertEqual(gate_costs.libraries(text), {"low": [], "high": ["low"], "top": ["high", "low"]})


class Looks(unittest.TestCase):
    """Looks at processes that were made up: 10 is `rt`, 20 and 30 are proofs, and 21 and 22 are the jobs of 20."""

    works = {20: Work("low", "proof", "check", 3), 30: Work("high", "proof", "check")}

    def record(self, *looks):
        record = Record(10, self.works.get)
        for now, stats in enumerate(looks, 100):
            record.look(float(now), {10: Stat(1, 0.5, 1.0, 9), **stats}, load=now - 99)
        return record

    def test_jobs_count_once_before_and_after_their_process_waited_for_them(self):
        record = self.record(
            {20: Stat(10, 5.0, 90.0, 700), 21: Stat(20, 2.0, 95.0, 800), 22: Stat(20, 3.0, 95.0, 100)},
            {20: Stat(10, 8.0, 90.0, 700), 22: Stat(20, 6.0, 95.0, 100)},
            {20: Stat(10, 15.0, 90.0, 600)},
        )
        (process,) = record.processes()
        self.assertEqual((process.seconds, process.wall, process.memory, process.load), (15.0, 12.0, 800, 2.0))

    def test_jobs_that_are_there_at_the_last_look_count(self):
        (process,) = self.record({20: Stat(10, 5.0, 90.0, 0), 21: Stat(20, 2.0, 95.0, 0)}).processes()
        self.assertEqual(process.seconds, 7.0)

    def test_a_number_that_is_used_again_is_another_process(self):
        record = self.record({20: Stat(10, 5.0, 90.0, 0)}, {20: Stat(10, 1.0, 100.5, 0)})
        self.assertEqual([process.seconds for process in record.processes()], [5.0, 1.0])

    def test_processes_of_others_do_not_count(self):
        self.assertEqual(self.record({20: Stat(1, 5.0, 90.0, 0)}).processes(), [])

    def test_a_process_may_get_its_words_later(self):
        words = iter([None, None, Work("low", "proof", "check")])
        record = Record(10, lambda number: next(words) if number == 20 else None)
        for now in (100.0, 101.0, 102.0):
            record.look(now, {10: Stat(1, 0.0, 1.0, 0), 15: Stat(10, 0.0, 1.0, 0), 20: Stat(15, 2.0, 99.0, 0)}, 0)
        self.assertEqual([(process.start, process.end) for process in record.processes()], [(99.0, 102.0)])

    def test_how_many_are_side_by_side(self):
        both = {20: Stat(10, 1.0, 90.0, 0), 21: Stat(20, 1.0, 90.0, 0), 30: Stat(10, 1.0, 91.0, 0)}
        self.assertEqual(self.record({20: both[20]}, both, {30: both[30]}).lanes, 2)

    def test_a_run_of_processes(self):
        burn = "import subprocess, sys, time\nwhile time.process_time() < 0.2: pass\n"
        with tempfile.TemporaryDirectory() as room:
            rattle = pathlib.Path(room, "rattle")
            # It stays until it was looked at once more.
            ends = f"time.sleep({3 * gate_costs.PERIOD})"
            rattle.write_text(f"{burn}subprocess.run([sys.executable, '-c', {burn!r}])\n{ends}")
            words = [sys.executable, str(rattle), "build", "--crate-name", "low"]
            run = gate_costs.measured([sys.executable, "-c", f"{burn}subprocess.run({words})\nsys.exit(3)"], room)
        (process,) = run.processes
        self.assertEqual((run.status, run.lanes, process.work), (3, 1, Work("low", "proof", "check")))
        self.assertGreaterEqual(process.seconds, 0.38)
        self.assertLess(process.seconds, run.seconds - 0.15)


class Chains(unittest.TestCase):
    crates = {"base": [], "left": ["base"], "right": ["base"], "top": ["left", "right"]}

    def longest(self, **costs):
        keys = {name: tuple(name.split("_")) for name in costs}
        return longest_chain(waits_of(self.crates), {keys[name]: cost for name, cost in costs.items()})

    def test_the_dearer_of_two_libraries(self):
        found = self.longest(base_proof=5, left_proof=3, right_proof=4, top_proof=1)
        self.assertEqual(found, [("base", "proof"), ("right", "proof"), ("top", "proof")])

    def test_tests_do_not_wait_for_the_proof_of_their_crate_and_edits_wait_for_both(self):
        found = self.longest(base_proof=5, left_proof=9, left_tests=8, left_edits=6, right_proof=10, top_proof=4)
        self.assertEqual(found, [("base", "proof"), ("left", "proof"), ("left", "edits")])

    def test_tests_before_edits(self):
        found = self.longest(base_proof=5, left_proof=8, left_tests=9, left_edits=6, right_proof=10, top_proof=4)
        self.assertEqual(found, [("base", "proof"), ("left", "tests"), ("left", "edits")])

    def test_edits_wait_for_their_seed_which_waits_for_the_libraries(self):
        found = self.longest(base_proof=5, left_proof=8, left_seed=9, left_edits=6, right_proof=10, top_proof=4)
        self.assertEqual(found, [("base", "proof"), ("left", "seed"), ("left", "edits")])

    def test_a_chain_may_begin_above_what_was_not_measured(self):
        self.assertEqual(self.longest(top_proof=1), [("top", "proof")])


def process(crate, kind, start, end, seconds, part="check"):
    return Process(Work(crate, kind, part), start, end, seconds, 2_000_000_000, 1.5, 4)


class Tables(unittest.TestCase):
    processes = [
        process("base", "proof", 100.0, 400.0, 300.0),
        process("low", "proof", 400.0, 520.0, 120.0),
        process("low", "edits", 520.0, 700.0, 180.0),
        process("low", "edits", 701.0, 760.0, 60.0),
        process("low", "edits", 701.0, 751.0, 50.0),
        process("low", "edits", 761.0, 820.0, 60.0),
        process("low", "runs", 821.0, 822.0, 1.5, "program"),
    ]
    crates = {"base": [], "low": ["base"]}

    def tasks(self):
        with tempfile.TemporaryDirectory() as room:
            folder = pathlib.Path(room, "crates/low/must-fail")
            folder.mkdir(parents=True)
            for name in ["b.edit", "a.edit", "a-b.edit", "notes.md"]:
                (folder / name).write_text("")
            self.assertEqual(gate_costs.edit_names(room, "low"), ["a-b", "a", "b"])
            (folder / "b.edit").unlink()
            return gate_costs.tasks_of(self.processes, self.crates, room)

    def test_each_check_of_an_edit_has_its_name(self):
        several = ["the crate without an edit", "a-b", "a", "the crate once more"]
        self.assertEqual(self.tasks()["low", "edits"].parts, several)
        self.assertEqual(gate_costs.checked_edits(["a"], 1), ["a"])
        again = ["the crate without an edit", "a", "b", "the crate once more", "again, from nothing"]
        self.assertEqual(gate_costs.checked_edits(["a", "b"], 5), again)

    def test_the_table(self):
        lines = list(gate_costs.lines_of(self.tasks()))
        self.assertEqual([line.split(None, 5) for line in lines[1:]], [
            ["300.0", "300.0", "1", "1.5", "2000", "base"],
            ["120.0", "120.0", "1", "1.5", "2000", "low"],
            ["350.0", "300.0", "1", "1.5", "2000", "low's edits"],
            ["180.0", "180.0", "1", "1.5", "2000", "the crate without an edit"],
            ["60.0", "59.0", "1", "1.5", "2000", "a-b"],
            ["50.0", "50.0", "1", "1.5", "2000", "a"],
            ["60.0", "59.0", "1", "1.5", "2000", "the crate once more"],
            ["1.5", "1.0", "1", "1.5", "2000", "low's runs"],
        ])

    def line(self, run):
        chain = gate_costs.chain_by("seconds", self.tasks(), self.crates)
        with mock.patch.object(gate_costs, "processors", return_value=4):
            return gate_costs.summary(run, self.tasks(), chain)

    def test_the_last_line(self):
        quiet = Run(0, self.processes, 3, 750.0, 730.0, 0.05, 0.0)
        said = "gate: 12.9 processor minutes, 12.5 wall on 4 processors with 3 lanes, 2.6 times base (300 s), "
        said += "chain 10.0 minutes = 2.0 times base: base, low's seed, low's edits"
        self.assertEqual(self.line(quiet), said)

    def test_a_measure_under_load_or_of_a_gate_that_failed_says_so(self):
        busy = self.line(Run(1, self.processes, 3, 750.0, 730.0, 2.04, 0.3))
        self.assertIn("gate: FAILED with status 1, so a part alone was measured: 12.9 processor minutes", busy)
        said = "UNDER LOAD, so times are too high: other work took 2.0 processors, the machine's host took 0.3"
        self.assertTrue(busy.endswith(said), busy)

    def test_a_run_that_keeps_a_crate_takes_it_from_an_earlier_one(self):
        run = Run(0, self.processes, 3, 750.0, 730.0, 0.05, 0.0)
        chains = {"processor seconds": gate_costs.chain_by("seconds", self.tasks(), self.crates)}
        data = gate_costs.as_data(run, self.tasks(), chains, "")
        own = gate_costs.tasks_of([process("low", "proof", 0.0, 90.0, 60.0)], self.crates, ".")
        both = gate_costs.with_earlier(own, data, self.crates)
        self.assertEqual({key: task.seconds for key, task in both.items()}, {
            ("base", "proof"): 300.0, ("low", "proof"): 60.0, ("low", "edits"): 350.0
        })
        self.assertEqual(gate_costs.chain_by("seconds", both, self.crates).seconds, 600.0)
        line = gate_costs.summary(run, both, chains["processor seconds"], 650.0)
        self.assertIn("11.8 processor minutes (10.8 of them in an earlier run), 12.5 wall", line)
