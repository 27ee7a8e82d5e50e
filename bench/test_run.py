#!/usr/bin/env python3
"""Tests of the benchmark itself: the writes, the peers that are built, and run.py over stand_in.sh in place of ztxg.
The program in C is served by clients/stand_in.

    make -C bench check
"""

import contextlib
import io
import itertools
import os
import pathlib
import statistics
import subprocess
import sys
import tempfile
import unittest
from dataclasses import replace

import run

HERE = pathlib.Path(__file__).resolve().parent
SERVES = HERE.parent / "clients/stand_in"
MIB = run.MIB
sys.path.insert(0, str(HERE.parent))

from tools.model import load as small  # noqa: E402
from tools.model.pcg import Pcg32  # noqa: E402


def invented(seconds):
    return [run.Measured(it, None) for it in seconds]


class Ratios(unittest.TestCase):
    """On times that are made up, with ratios worked out by hand."""

    def setUp(self):
        self.ztxg = run.Ztxg(pathlib.Path("ztxg"), 64 * MIB, 0)
        self.sqlite = run.Peer(pathlib.Path("sqlite"), "busy", run.EACH, False)
        self.rocksdb = run.Peer(pathlib.Path("rocksdb"), "default", run.EACH, False)
        self.log = run.Peer(pathlib.Path("log"), "grown", run.EACH, True)
        contestants = [self.ztxg, self.sqlite, self.rocksdb, self.log]
        self.race = run.Race(run.Load(1, 10, 5), contestants)
        self.race.runs = {
            self.ztxg: invented([2.0, 4.0, 2.0]),
            self.sqlite: invented([3.0, 4.0, 8.0]),
            self.rocksdb: invented([5.0, 4.5, 1.0]),
            self.log: invented([1.0, 1.0, 0.5]),
        }
        self.race.empty = {it: run.Measured(0.1, None) for it in contestants}

    def test_a_ratio_is_of_two_runs_of_one_round(self):
        self.assertEqual(self.race.ratios(self.sqlite, self.ztxg), [1.5, 1.0, 4.0])

    def test_the_better_store_has_the_lower_middle_and_is_no_log(self):
        self.assertEqual(self.race.better(run.EACH), self.sqlite)
        self.assertIsNone(self.race.better(run.EIGHTH))

    def test_tables_of_one_promise_have_goals_that_look_at_the_middle(self):
        like, durable, unlike = run.TABLES
        each = run.Ztxg(pathlib.Path("ztxg"), 64 * MIB, 0, pathlib.Path("durable"))
        self.race.contestants.append(each)
        self.race.runs[each] = invented([3.0, 3.0, 3.0])
        _, row = run.ratio_rows([self.race], durable)
        self.assertEqual(row[0], "1, 64 MiB")
        self.assertEqual(row[1:], ["1.33 (1.00-2.67)", "1.50 (0.33-1.67)", "1.33 (1.00-2.67) sqlite busy", "1.2 met"])
        _, row = run.ratio_rows([self.race], unlike)
        self.assertEqual(row[1:], ["1.50 (1.00-4.00)", "1.12 (0.50-2.50)", "1.50 (1.00-4.00) sqlite busy"])
        _, row = run.log_rows(self.race, unlike)
        self.assertEqual(row[1:], ["0.25 (0.25-0.50)"])
        self.assertEqual(run.goal_of(like, self.race, self.ztxg), 1.5)

    def test_large_writes_have_a_table_of_their_own_without_goals(self):
        self.assertEqual(run.tables_of([self.race]), run.TABLES)
        large = run.Race(run.Load(1, 10, 5, 65_000), self.race.contestants, self.race.runs, self.race.empty)
        each = run.Ztxg(pathlib.Path("ztxg"), 64 * MIB, 0, pathlib.Path("durable"))
        large.contestants.append(each)
        large.runs[each] = invented([3.0, 3.0, 3.0])
        *_, table = run.tables_of([self.race, large])
        self.assertIn("writes of 64 KiB (65,000 bytes)", table.title)
        head, row = run.ratio_rows([large], table)
        self.assertEqual(head, ["workers, limit", "sqlite busy", "rocksdb", "better of them"])
        self.assertEqual(row[1:], ["1.33 (1.00-2.67)", "1.50 (0.33-1.67)", "1.33 (1.00-2.67) sqlite busy"])
        _, row = run.log_rows(large, table)
        self.assertEqual(row[1:], ["0.33 (0.17-0.33)"])
        for other in run.TABLES:
            self.assertEqual(list(run.ratio_rows([large], other)), [])

    def test_served_pools_have_tables_of_their_own_with_rates(self):
        served = run.Served(pathlib.Path("ztxg"), MIB, 0, run.EACH)
        self.race.contestants.append(served)
        self.race.runs[served] = invented([2.0, 8.0, 4.0])
        self.race.empty[served] = run.Measured(0.1, None)
        *others, table = run.tables_of([self.race])
        self.assertEqual(others, run.TABLES)
        self.assertIn("FROM C, small writes", table.title)
        # 160 commits in 4 seconds each, and in 4.5.
        head, row = run.rate_rows([self.race], table)
        self.assertEqual(head, ["workers, limit", "served", "sqlite busy", "rocksdb"])
        self.assertEqual(row, ["1, 1 MiB", "40", "40", "36"])
        head, row = run.ratio_rows([self.race], table)
        self.assertEqual(head, ["workers, limit", "sqlite busy", "rocksdb", "better of them"])
        self.assertEqual(row[1:], ["1.50 (0.50-2.00)", "0.56 (0.25-2.50)", "1.50 (0.50-2.00) sqlite busy"])
        for other in run.TABLES:
            self.assertEqual(list(run.rate_rows([self.race], other)), [])
        printed = []
        run.report([self.race], printed.append)
        self.assertIn(run.RATES, printed)
        self.assertTrue(any(it.endswith("middle of 3 rounds") for it in printed))

    def test_a_mode_that_did_not_run_has_no_rows(self):
        like, durable, _ = run.TABLES
        self.assertEqual(list(run.ratio_rows([self.race], like)), [])
        self.assertEqual(list(run.ratio_rows([self.race], durable)), [])

    def test_each_round_begins_with_the_next_contestant(self):
        orders = [run.in_turn(list("abc"), number) for number in range(4)]
        self.assertEqual(orders, [list("abc"), list("bca"), list("cab"), list("abc")])


class Writes(unittest.TestCase):
    """What they leave, by readings of their rules that share no code with the peers'."""

    def contents(self, *words):
        return run.call([run.PEERS / "log", "contents", run.POOL, *words])

    def encoded(self, objects):
        """The form of docs/FORMATS.md, 9."""
        parts = [len(run.POOL).to_bytes(4, "little"), run.POOL.encode(), len(objects).to_bytes(4, "little")]
        for number, content in sorted(objects.items()):
            parts += [number.to_bytes(4, "little"), len(content).to_bytes(8, "little"), content]
        return b"".join(parts)

    def test_small_writes_are_those_of_a_load(self):
        self.assertEqual(self.contents("small", 40, 5), self.encoded(small.contents(5, 40)))

    def test_large_writes_have_places_and_bytes_of_the_text(self):
        drawn = Pcg32(0, 0)
        text = bytes(drawn.next_u32() % 256 for _ in range(255 + run.LONGEST))
        for length, places in ((1, 338_688), (4096, 82), (65_000, 5), (run.LONGEST, 5)):
            objects = {}
            for stream in range(run.STREAMS):
                words, content = Pcg32(5, stream), bytearray()
                for _ in range(7):
                    word = words.next_u32()
                    low, begin = length * (word % places), word // 65_536 % 256
                    content.extend(bytes(max(0, low + length - len(content))))
                    content[low : low + length] = text[begin : begin + length]
                objects[stream] = bytes(content)
            self.assertEqual(self.contents(length, 7, 5), self.encoded(objects), length)


class StandIn(unittest.TestCase):
    """Whole runs, with a script that sleeps in place of ztxg."""

    def run_with(self, *words, **environment):
        output = io.StringIO()
        with tempfile.TemporaryDirectory() as folder:
            raw = pathlib.Path(folder) / "raw"
            for name, value in environment.items():
                os.environ[name] = value
                self.addCleanup(os.environ.pop, name, None)
            with contextlib.redirect_stdout(output), contextlib.redirect_stderr(io.StringIO()):
                stand_in = str(HERE / "stand_in.sh")
                run.main(["--ztxg", stand_in, "--durable", stand_in, "--folder", folder, "--raw", str(raw), *words])
            self.assertEqual(os.listdir(folder), ["raw"])
            return output.getvalue(), [line.split("\t") for line in raw.read_text().splitlines()[1:]]

    def test_times_and_ratios_are_those_of_the_runs(self):
        words = ["--ops", "8", "--rounds", "3", "--workers", "1", "--bytes", "small", "--only", "ztxg,log grown each"]
        printed, raw = self.run_with(*words, STAND_IN_SLOW="0.3", STAND_IN_FAST="0.1")
        runs = {name: [float(it[3]) for it in raw if it[2] == name and it[0]] for name in {it[2] for it in raw}}
        self.assertEqual(sorted(runs), ["log grown each", "ztxg 1 MiB", "ztxg 64 MiB", "ztxg 64 MiB each"])
        self.assertTrue(all(len(it) == 3 for it in runs.values()))
        self.assertTrue(min(runs["ztxg 1 MiB"]) >= 0.3 and min(runs["ztxg 64 MiB each"]) >= 0.1)
        ratio = statistics.median(a / b for a, b in zip(runs["log grown each"], runs["ztxg 1 MiB"], strict=True))
        row = next(line for line in printed.splitlines() if line.startswith("1, 1 MiB"))
        self.assertEqual(row.split()[3], f"{ratio:.2f}")

    def test_no_round_but_the_first_begins_late(self):
        words = ["--ops", "8", "--rounds", "3", "--workers", "1", "--bytes", "small", "--only", "log grown each"]
        printed, raw = self.run_with(*words, "--seconds", "0")
        self.assertEqual([it[0] for it in raw], ["", "1"])
        self.assertIn("middle of 1 rounds", printed)

    def test_large_writes_are_made_with_each_commit_durable(self):
        words = ["--ops", "8", "--rounds", "1", "--workers", "1,4", "--bytes", "4096,65000", "--only", "ztxg,log grown"]
        printed, raw = self.run_with(*words, STAND_IN_SLOW="0.3", STAND_IN_FAST="0.1")
        runs = {(it[5], it[1], it[2]): float(it[3]) for it in raw if it[0]}
        ours, log = "ztxg 64 MiB each", "log grown each"
        wanted = {(name, workers, ours) for name in ("4 KiB", "64 KiB") for workers in "14"}
        self.assertEqual(set(runs), wanted | {(name, "1", log) for name in ("4 KiB", "64 KiB")})
        for name, number in (("4 KiB", "4,096"), ("64 KiB", "65,000")):
            _, _, shown = printed.partition(f"EACH COMMIT DURABLE, writes of {name} ({number} bytes)")
            row = next(line for line in shown.splitlines() if line.startswith("1, 64 MiB"))
            self.assertEqual(row.split()[3], f"{runs[name, '1', log] / runs[name, '1', ours]:.2f}")

    def test_a_served_pool_runs_in_both_modes(self):
        words = ["--ops", "8", "--rounds", "1", "--workers", "4", "--bytes", "small,4096", "--only", "served"]
        words += ["--served", str(SERVES), "--dirty", "1048576"]
        printed, raw = self.run_with(*words)
        runs = {(it[5], it[2]): float(it[3]) for it in raw if it[0]}
        each, eighth = "served 1 MiB each", "served 1 MiB eighth"
        self.assertEqual(set(runs), {("small", each), ("small", eighth), ("4 KiB", each)})
        _, _, shown = printed.partition("FROM C, writes of 4 KiB (4,096 bytes)")
        row = next(line for line in shown.splitlines() if line.startswith("4, 1 MiB"))
        self.assertAlmostEqual(float(row.split()[-1]), 128 / runs["4 KiB", each], delta=0.51)

    def test_an_earlier_build_has_a_table_of_its_own(self):
        words = ["--ops", "8", "--rounds", "1", "--workers", "1", "--bytes", "small", "--only", "ztxg"]
        words += ["--before", str(HERE / "stand_in.sh")]
        printed, raw = self.run_with(*words, STAND_IN_SLOW="0.1", STAND_IN_FAST="0.1")
        seconds = {it[2]: float(it[3]) for it in raw if it[0]}
        row = next(line for line in printed.splitlines() if line.startswith("1, 64 MiB"))
        self.assertEqual(row.split()[3], f"{seconds['ztxg before 64 MiB'] / seconds['ztxg 64 MiB']:.2f}")

    def test_another_digest_ends_the_run(self):
        words = ["--ops", "8", "--rounds", "1", "--workers", "1", "--only", "ztxg", "--bytes"]
        for length in ("small", "4096"):
            with self.assertRaisesRegex(run.Failure, "digest"):
                self.run_with(*words, length, STAND_IN_SLOW="0", STAND_IN_FAST="0", STAND_IN_WRONG="pond")


class Peers(unittest.TestCase):
    """Each peer that is built, at each number of threads and with each length of writes."""

    def each_run(self, ops, *words):
        """Yields each peer with the path of its store after a run, the load, and the number of flushes."""
        options = run.parse(words)
        for workers, length in itertools.product([1, 3, 16], options.bytes):
            load = run.Load(workers, ops, 5, length)
            for peer in run.contestants_of(options, load):
                with tempfile.TemporaryDirectory() as folder:
                    path = pathlib.Path(folder) / "store"
                    peer.prepare(path, load)
                    yield peer, path, load, peer.flushes(run.call(peer.command(path, load)), load)

    def test_a_store_holds_the_writes_and_no_others(self):
        for peer, path, load, _ in self.each_run(10, "--served", str(SERVES), "--dirty", str(MIB)):
            peer.check(path, load)
            lengths = set(run.LARGE) - {load.length}
            others = [replace(load, ops=load.ops + 1), replace(load, ops=load.ops - 1), replace(load, seed=6)]
            for other in others + [replace(load, length=length) for length in lengths]:
                with self.assertRaises(run.Failure, msg=f"{peer.name}, {other}"):
                    peer.check(path, other)

    # A store opens, closes and makes checkpoints with some flushes of its own. With large writes SQLite may make one
    # after each commit, with two flushes. RocksDB flushes once for the commits of several threads.
    def test_a_commit_is_flushed_as_the_mode_says(self):
        for peer, _, load, flushes in self.each_run(8):
            durable = load.commits if peer.flush == run.EACH else load.commits // 8
            least = durable if load.workers == 1 or peer.program.name != "rocksdb" else durable // load.workers
            most = durable + 64 + (0 if load.length is run.SMALL else 2 * load.commits)
            self.assertTrue(least <= flushes <= most, f"{peer.name}, {load}: {flushes} flushes")

    def test_a_damaged_log_is_refused(self):
        with tempfile.TemporaryDirectory() as folder:
            path = pathlib.Path(folder) / "store"
            load = run.Load(1, 4, 5)
            peer = run.Peer(run.PEERS / "log", "grown", run.EACH, True)
            peer.prepare(path, load)
            run.call(peer.command(path, load))
            held = bytearray(path.read_bytes())
            held[-1] ^= 1
            path.write_bytes(held)
            with self.assertRaisesRegex(run.Failure, "another byte"):
                peer.check(path, load)

    def test_wrong_words_are_refused(self):
        faults = ["", "run grown x small 1 5 2 each", "run grown x small 1 5 1 often", "contents tank small -1 5"]
        for words in faults + ["contents tank 0 1 5", "contents tank 65498 1 5", "contents tank large 1 5", "check x"]:
            done = subprocess.run([run.PEERS / "log", *words.split()], capture_output=True)
            self.assertEqual(done.returncode, 2, words)


if __name__ == "__main__":
    unittest.main()
