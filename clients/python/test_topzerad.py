"""Tests of the client, on pools of their own: `python3 test_topzerad.py [PROGRAM [TEST ..]]`. Without words the
stand-in takes the place of the program. If TOPZERAD_HUB names the program of a hub, each pool that is made first has
one."""

import contextlib
import copy
import errno
import os
import pathlib
import pickle
import signal
import socket
import struct
import subprocess
import sys
import tempfile
import threading
import time
import unittest

import topzerad
from topzerad import MAX_LENGTH, PIECE, Pool, create, create_pool, remove, set_length, set_name, write
from topzerad.errors import unusable
from topzerad.frames import READ, STATUS, TRANSACT
from topzerad.turns import Call, Turns

PROGRAM = str(pathlib.Path(__file__).resolve().parent.parent / "stand_in")
HUB = os.environ.get("TOPZERAD_HUB")
MIB = 1 << 20


@contextlib.contextmanager
def interrupt_after(seconds):
    """A signal's handler ends what is called within by an `InterruptedError` after these seconds."""

    def interrupt(*_):
        raise InterruptedError

    before = signal.signal(signal.SIGALRM, interrupt)
    signal.setitimer(signal.ITIMER_REAL, seconds)
    try:
        yield
    finally:
        signal.setitimer(signal.ITIMER_REAL, 0)
        signal.signal(signal.SIGALRM, before)


@contextlib.contextmanager
def stopped(pool, timeout=None):
    """The process with the pool answers nothing meanwhile. The pool has this timeout then, and none before and after,
    since a busy machine is slow."""
    os.kill(pool.pid, signal.SIGSTOP)
    pool._server._timeout = timeout
    try:
        yield
    finally:
        pool._server._timeout = None
        os.kill(pool.pid, signal.SIGCONT)


def outcome_of(call, *words):
    """What a call returns, or the class of what it raises."""
    try:
        return call(*words)
    except Exception as error:
        return type(error)


def started(target, *words):
    thread = threading.Thread(target=target, args=words, daemon=True)
    thread.start()
    return thread


class SharedPool(Pool):
    """A pool that a hub of its own has. The hub ends with it, and `pid` is its number."""

    pid = 0

    def __init__(self, path, **options):
        place = path.with_suffix(".socket")
        self.hub = subprocess.Popen([HUB, path, "--socket", place, "--program", PROGRAM])
        self.pid = self.hub.pid
        while not place.exists() and self.hub.poll() is None:
            time.sleep(0.01)
        super().__init__(socket=place, **options)

    def close(self):
        try:
            super().close()
        finally:
            self.hub.terminate()
            self.hub.wait()


class OnPools(unittest.TestCase):
    def setUp(self):
        folder = tempfile.TemporaryDirectory()
        self.addCleanup(folder.cleanup)
        self.folder = pathlib.Path(folder.name)
        self.path = self.folder / "tank.pool"

    def open(self, **options):
        """A new pool."""
        create_pool(PROGRAM, self.path, "tank", 77, 64 * MIB)
        return SharedPool(self.path, **options) if HUB else Pool(PROGRAM, self.path, **options)

    def refused(self, number, call, *words, **options):
        with self.assertRaises(topzerad.Refused) as caught:
            call(*words, **options)
        self.assertEqual(caught.exception.number, number)
        return caught.exception

    def script(self, text):
        """A program in place of `ztxg`."""
        path = self.folder / "script"
        path.write_text(f"#!{sys.executable}\nimport os, struct, sys, time\n{text}\n")
        path.chmod(0o755)
        return path


class Openings(OnPools):
    def test_an_open_pool(self):
        with self.open(dirty=8 * MIB, cache=16, moment=5, wait=1, timeout=60) as pool:
            self.assertEqual((pool.opened.guid, pool.opened.records), (77, 0))
            self.assertEqual(pool.opened.group, pool.status().synced)
            pool.transact_durably([create(1)])
            pool.transact_durably([write(1, 0, b"one")])
            os.kill(pool.pid, signal.SIGKILL)
            with self.assertRaises(topzerad.Ended) as caught:
                pool.close()
            self.assertEqual(caught.exception.status, -signal.SIGKILL)
        with Pool(PROGRAM, self.path) as pool:
            self.assertEqual((pool.opened.guid, pool.opened.records), (77, 2))
            self.assertEqual(pool.read(1), b"one")
        with Pool(PROGRAM, self.path) as pool:
            self.assertEqual(pool.opened.records, 0)

    def test_a_file_that_cannot_be_used(self):
        with self.assertRaises(FileNotFoundError) as caught:
            Pool(PROGRAM, self.path)
        self.assertIsInstance(caught.exception, topzerad.FileMissing)
        self.assertEqual((caught.exception.errno, caught.exception.filename), (2, str(self.path)))
        with self.assertRaisesRegex(topzerad.FileUnusable, "not a regular file") as caught:
            Pool(PROGRAM, self.folder)
        self.assertEqual(caught.exception.errno, 0)
        with self.open() as pool:
            with self.assertRaisesRegex(BlockingIOError, "in use"):
                Pool(PROGRAM, self.path)
            started(lambda: (time.sleep(0.3), pool.close()))
            with Pool(PROGRAM, self.path, wait=60, timeout=60) as next_one:
                self.assertEqual(next_one.name(), b"tank")
        opening = struct.pack("<IHHIQQII", 41, 1, 5, 0, 0, 0, 13, 5) + b"cause"
        with self.assertRaisesRegex(PermissionError, "cause"):
            Pool(self.script(f"os.write(1, {opening})"), self.path)

    def test_a_pool_that_cannot_be_opened(self):
        self.path.write_bytes(b"no pool")
        self.refused(8, Pool, PROGRAM, self.path)
        os.truncate(self.path, 8 * MIB)
        self.refused(6, Pool, PROGRAM, self.path)
        self.path.unlink()
        content = bytes(range(100, 200))
        with self.open() as pool:
            pool.transact_durably([create(1), write(1, 100, content)])
        self.refused(11, Pool, PROGRAM, self.path, dirty=4_095)
        blocks = self.path.read_bytes()
        at = blocks.find(content)
        while at >= 0:
            blocks = blocks[: at - 39] + bytes(139) + blocks[at + 100 :]
            at = blocks.find(content)
        self.path.write_bytes(blocks)
        refused = self.refused(7, Pool, PROGRAM, self.path)
        self.assertTrue(2 <= refused.kind <= 7 and refused.address)
        self.assertIn(f"the block of kind {refused.kind} at byte {refused.address} is damaged", str(refused))

    def test_no_opening(self):
        says_why = self.script("sys.stderr.write('no such option'); sys.exit(2)")
        with self.assertRaisesRegex(topzerad.NoOpening, "ended with status 2.*no such option") as caught:
            Pool(says_why, self.path)
        self.assertEqual(caught.exception.status, 2)
        with self.assertRaises(topzerad.Broken):
            Pool(self.script("print('usage: script'); time.sleep(60)"), self.path)
        with self.assertRaises(topzerad.TimedOut):
            Pool(self.script("time.sleep(60)"), self.path, timeout=0.3)
        with self.assertRaises(topzerad.FileMissing) as caught:
            Pool(self.folder / "no program", self.path)
        self.assertEqual(caught.exception.filename, str(self.folder / "no program"))

    def test_a_socket_without_a_hub(self):
        place = self.folder / "socket"
        with self.assertRaises(topzerad.FileMissing) as caught:
            Pool(socket=place)
        self.assertEqual(caught.exception.filename, str(place))
        with self.assertRaisesRegex(topzerad.FileUnusable, "too long"):
            Pool(socket="x" * 200)
        for options in ({"dirty": 4_096}, {"wait": 1}, {"program": PROGRAM}, {"path": self.path}):
            self.refused(11, Pool, socket=place, **options)
        with self.assertRaises(TypeError):
            Pool(PROGRAM)
        with socket.socket(socket.AF_UNIX) as listener:
            listener.bind(str(place))
            with self.assertRaises(topzerad.FileUnusable) as caught:
                Pool(socket=place)
            self.assertEqual(caught.exception.errno, errno.ECONNREFUSED)
            listener.listen(0)
            for _ in range(3):  # the last ones aren't let wait
                with self.assertRaises(topzerad.TimedOut):
                    Pool(socket=os.fsencode(place), timeout=0.2)
        place.unlink()
        with socket.socket(socket.AF_UNIX) as listener:
            listener.bind(str(place))
            listener.listen()
            for content, error in [(b"", topzerad.NoOpening), (struct.pack("<IHHI", 12, 1, 2, 0), topzerad.Broken)]:
                thread = started(self.answer_one, listener, content)
                with self.assertRaises(error):
                    Pool(socket=place)
                thread.join()

    def answer_one(self, listener, content):
        client, _ = listener.accept()
        with client:
            client.sendall(content)

    def test_create(self):
        with self.open() as pool:
            with self.assertRaises(FileExistsError):
                create_pool(PROGRAM, self.path, "tank", 77, 64 * MIB)
            with self.assertRaises(topzerad.FileInUse):
                create_pool(PROGRAM, self.path, "tank", 77, 64 * MIB, replace=True)
            self.assertEqual(pool.name(), b"tank")
        create_pool(PROGRAM, self.path, b"pond", 2**64 - 1, 8 * MIB, replace=True, moment=5, wait=1, timeout=60)
        with Pool(PROGRAM, os.fsencode(self.path)) as pool:
            self.assertEqual((pool.name(), pool.opened.guid), (b"pond", 2**64 - 1))
        self.refused(8, create_pool, PROGRAM, self.folder / "new", "tank", 77, 7_000_000)
        with self.assertRaises(topzerad.FileMissing):
            create_pool(PROGRAM, self.folder / "no" / "folder", "tank", 77, 8 * MIB)
        with self.assertRaisesRegex(topzerad.Ended, "status 2"):
            create_pool(self.script("sys.exit(2)"), self.path, "tank", 77, 8 * MIB)
        with self.assertRaises(topzerad.TimedOut):
            create_pool(self.script("time.sleep(60)"), self.path, "tank", 77, 8 * MIB, timeout=0.3)


class Calls(OnPools):
    def test_each_call(self):
        with self.open() as pool:
            self.assertEqual(pool.name(), b"tank")
            self.refused(9, pool.length, 1)
            receipt = pool.transact_durably([create(1), write(1, 100, b"wxyz")])
            self.assertTrue(pool.durable(receipt))
            self.refused(10, pool.transact, [create(1)])
            self.assertEqual(pool.read(1, 98), b"\0\0wxyz")
            self.assertEqual(pool.length(1), 104)
            first, second, third = pool.transact_many_durably([[create(2)], [create(2)], [set_length(2, 7)]])
            self.assertEqual((first.ordinal + 1, third.ordinal), (third.ordinal, receipt.ordinal + 2))
            self.assertEqual((second.number, second.receipt), (10, None))
            self.assertEqual(pool.objects(), {1: 104, 2: 7})
            receipt = pool.transact([remove(1), set_name("pond")])
            self.assertFalse(pool.durable(receipt))
            pool.flush()
            self.assertTrue(pool.durable(receipt))
            self.assertEqual((pool.name(), pool.objects()), (b"pond", {2: 7}))
            (receipt,) = pool.transact_many([[write(2, 1, memoryview(b"abc"))]])
            self.assertFalse(pool.durable(receipt))
            self.assertEqual(pool.sync(), pool.status().synced)
            self.assertTrue(pool.durable(receipt))
            self.assertEqual((pool.read(2), pool.transact_many([])), (b"\0abc\0\0\0", []))

    def test_what_is_not_sent(self):
        rows = [
            (create, -1, "object -1: 0 to 5291"),
            (remove, 5_292, "object 5292: 0 to 5291"),
            (set_length, 1, MAX_LENGTH + 1, "length 28449793: 0 to 28449792"),
            (write, 1, MAX_LENGTH, b"1", "offset 28449792: 0 to 28449791"),
            (write, 1, MAX_LENGTH - 1, b"12", "the bytes end at 28449793: an object has at most 28449792"),
            (write, 1, 0, b"", "0 bytes"),
            (set_name, "1x", "name '1x'"),
            (set_name, "x" * 65, "1 to 64 bytes"),
        ]
        for call, *words, text in rows:
            with self.assertRaisesRegex(ValueError, text):
                call(*words)
        with self.open() as pool:
            pool.transact([create(1)])
            for call, *words in [
                (pool.length, 2**32),
                (pool.read, 1, -1),
                (pool.read, 1, 0, 2**64),
                (pool.objects, 0, 2**32),
                (pool.durable, (0, 2**64)),
                (pool.transact, []),
                (pool.write_long, 1, MAX_LENGTH, b"1"),
            ]:
                self.assertIsInstance(self.refused(11, call, *words), ValueError)
            for timeout in (0, -1, float("nan"), float("inf")):
                self.refused(11, Pool, PROGRAM, self.path, timeout=timeout)
            self.refused(11, Pool, PROGRAM, self.path, wait=86_401)
            self.refused(18, pool.transact, [write(1, 0, bytes(65_498))])
            self.refused(18, pool.transact_many, [[write(1, 0, b"1")], [create(2)] * 13_103])
            for ops in (create(1), [b"\1\0\0\0\0"]):
                with self.assertRaises(TypeError):
                    pool.transact(ops)
            self.assertEqual((pool.length(1), pool.objects()), (0, {1: 0}))
            pool.transact([write(1, 0, bytes(65_497))])

    def test_long_object(self):
        content = bytes(at * at % 251 for at in range(5_000_000))
        with self.open() as pool:
            self.assertEqual(self.refused(9, pool.write_long, 200, 0, content).committed, 0)
            pool.transact([create(200)])
            pool.write_long(200, 0, content[:100])
            pool.write_long(200, 100, content[100:])
            self.assertEqual(pool.length(200), len(content))
            self.assertTrue(pool.read(200) == content)
            for low, high in [(3, 4_999_998), (PIECE - 1, PIECE + 1), (PIECE, 2 * PIECE), (1, 2 * PIECE + 2)]:
                self.assertTrue(pool.read(200, low, high) == content[low:high])
            self.assertEqual(pool.read(200, len(content)), b"")
            pool.transact([set_length(200, 2 * PIECE)])
            self.assertTrue(pool.read(200) == content[: 2 * PIECE])
            self.refused(11, pool.read, 200, 5, 5)
            self.refused(11, pool.read, 200, 0, MAX_LENGTH + 1)
            self.refused(9, pool.read, 201)

    def test_how_much_of_a_long_write_was_committed(self):
        class Full(Pool):
            def transact(self, ops):
                if self.objects().get(1, 0) > 100_000:
                    raise topzerad.Refused(16)
                return super().transact(ops)

        create_pool(PROGRAM, self.path, "tank", 77, 8 * MIB)
        with Full(PROGRAM, self.path) as pool:
            pool.transact([create(1)])
            committed = self.refused(16, pool.write_long, 1, 1, bytes(500_000)).committed
            self.assertEqual(committed, pool.length(1) - 1)
            self.assertEqual(committed, 2 * 16 * 4_032 - 1)

    def test_threads(self):
        with self.open() as pool:

            def commit(number):
                pool.transact([create(number)])
                for at in range(50):
                    pool.transact_durably([write(number, at, bytes([at]))])

            threads = [started(commit, 100 + at) for at in range(4)]
            for thread in threads:
                thread.join()
            for at in range(4):
                self.assertEqual(pool.read(100 + at), bytes(range(50)))

    def test_reads_at_one_moment(self):
        length = 3 * PIECE
        with self.open() as pool:
            pool.transact([create(300), set_length(300, length)])

            def commit():
                for at in range(1, 100):
                    pool.transact([write(300, 0, bytes([at])), write(300, length - 1, bytes([at]))])

            threads = [started(commit)]
            while any(thread.is_alive() for thread in threads):
                content = pool.read(300)
                self.assertEqual(content[0], content[-1])
            self.assertEqual(pool.read(300)[0], 99)


class Names(OnPools):
    def test_objects_by_name(self):
        with self.open() as pool:
            self.assertEqual(pool.names(), {})
            self.refused(9, pool.get, "report.pdf")
            self.assertEqual((pool.objects(), pool.put("report.pdf", b"one")), ({}, 1))
            self.assertEqual((pool.objects(), pool.read(0, 0, 16)), ({0: 512, 1: 3}, b"topzerad names 1"))
            pool.transact([create(2), write(2, 0, b"of another use")])
            self.assertEqual([pool.put(name, b"") for name in ("b c", "\u00e4\u20ac\U0001f600.txt")], [3, 4])
            self.assertEqual(pool.put("report.pdf", b"2"), 1)
            self.assertEqual((pool.get("report.pdf"), pool.get(b"b c")), (b"2", b""))
            self.assertEqual(pool.names(), {"report.pdf": 1, "b c": 3, "\u00e4\u20ac\U0001f600.txt": 4})
            pool.remove("b c")
            self.assertIn("b c", str(self.refused(9, pool.remove, "b c")))
            self.assertEqual(pool.put("after", bytes(range(200)) * 1_000), 3)
            self.assertTrue(pool.get("after") == bytes(range(200)) * 1_000)
            pool.transact([remove(1)])
            self.refused(9, pool.get, "report.pdf")
            self.assertEqual((pool.put("report.pdf", b"again"), pool.get("report.pdf")), (1, b"again"))
            pool.transact([remove(1)])
            pool.remove("report.pdf")
            self.assertEqual(pool.names(), {"after": 3, "\u00e4\u20ac\U0001f600.txt": 4})
            os.kill(pool.pid, signal.SIGKILL)
            with self.assertRaises(topzerad.Ended):
                pool.close()
        with Pool(PROGRAM, self.path, wait=60) as pool:
            self.assertEqual(pool.names(), {"after": 3, "\u00e4\u20ac\U0001f600.txt": 4})

    def test_what_is_no_name(self):
        with self.open() as pool:
            for name in ("", "a/b", "a\0", "\n", "\x7f", "\x85", "x" * 255, "\u00e4" * 128, "\udcff"):
                self.refused(11, pool.put, name, b"1")
            for name in (b"\xff", b"\xed\xa0\x80", b"\xc0\x80"):
                self.refused(11, pool.put, name, b"1")
            self.assertEqual(pool.objects(), {})
            pool.put("x" * 254, b"1")
            self.assertEqual(pool.put("\u00e4" * 127, b"2"), 2)
            self.assertEqual((pool.get("x" * 254), pool.get("\u00e4" * 127)), (b"1", b"2"))

    def test_an_object_0_of_another_use(self):
        with self.open() as pool:
            pool.put("one", b"1")
            pool.put("two", b"2")
            good = pool.read(0)
            slot = good[256:512]
            for bad in (
                b"a",
                good[:-1],
                good + b"\0",
                b"\0" * 256,
                b"T" + good[1:],
                good[:255] + b"1" + good[256:],
                good[:512] + slot,
                good + b"\xff\0" + bytes(254),
                good + slot[:255] + b"1",
                good + b"\1\0/" + bytes(253),
                good + b"\0\1" + bytes(254),
                good + bytes(256 * (topzerad.OBJECT_COUNT - 2)),
            ):
                pool.transact([set_length(0, 0)])
                pool.write_long(0, 0, bad)
                before = pool.objects()
                for call, *words in [(pool.get, "one"), (pool.put, "new", b"3"), (pool.remove, "one"), (pool.names,)]:
                    self.assertIn("object 0 is no table of names", str(self.refused(11, call, *words)))
                self.assertEqual((pool.objects(), pool.read(0) == bad), (before, True))
            pool.transact([set_length(0, 0)])
            pool.write_long(0, 0, good + bytes(256 * (topzerad.OBJECT_COUNT - 3)))
            self.assertEqual((pool.names(), pool.put("three", b"3")), ({"one": 1, "two": 2}, 3))

    def test_no_number_is_left(self):
        with self.open() as pool:
            slots = [topzerad.name_table.slot_of(b"%d" % number) for number in range(1, topzerad.OBJECT_COUNT - 1)]
            pool.transact([create(0)])
            pool.write_long(0, 0, topzerad.name_table.HEADER + b"".join(slots))
            self.assertEqual(len(pool.names()), 5_290)
            self.assertEqual(pool.put("last", b"1"), 5_291)
            self.assertIn("no number is left", str(self.refused(22, pool.put, "one more", b"1")))
            pool.remove("17")
            self.assertEqual(pool.put("one more", b"1"), 17)

    def test_threads_that_put_one_name(self):
        with self.open() as pool:
            numbers = []

            def put(at):
                for name in ("a", "b", "c", "d"):
                    numbers.append((name, pool.put(name, bytes([at]) * 100_000)))

            for thread in [started(put, at) for at in range(4)]:
                thread.join()
            self.assertEqual(len(numbers), 16)
            self.assertEqual(set(numbers), set(pool.names().items()))
            self.assertEqual(sorted(pool.objects()), [0, 1, 2, 3, 4])
            for name in ("a", "b", "c", "d"):
                content = pool.get(name)
                self.assertEqual((len(content), len(set(content))), (100_000, 1))


class Frames(unittest.TestCase):
    """The frames that the calls of threads share, without a process."""

    def setUp(self):
        self.frames, self.gate = [], threading.Semaphore(0)
        self.turns = Turns(self.ask)

    def ask(self, calls):
        self.frames.append(len(calls))
        self.gate.acquire()
        return [None for _ in calls]

    def start_queued(self, count):
        """Starts so many threads with a call each, which wait while another one leads."""
        threads = [started(self.turns.make, [Call(STATUS)]) for _ in range(count)]
        while len(self.turns._queue) < count:
            time.sleep(0.001)
        return threads

    def test_calls_that_wait_share_a_frame(self):
        leader = started(self.turns.make, [Call(STATUS), Call(STATUS)])
        while not self.frames:
            time.sleep(0.001)
        threads = self.start_queued(5)
        self.gate.release(2)
        for thread in [leader, *threads]:
            thread.join(10)
        self.assertEqual(self.frames, [2, 5])

    def test_limits(self):
        """docs/FRAMES.md: 4,194,304 bytes, and 12 and 80 for each answer with the bytes that it may have."""
        for words, count, frames in [
            ((STATUS,), 60_000, [52_428, 7_572]),
            ((TRANSACT, bytes(65_536)), 64, [63, 1]),
            ((READ, bytes(20), MIB), 4, [3, 1]),
        ]:
            self.frames.clear()
            self.gate.release(len(frames))
            self.turns.make([Call(*words) for _ in range(count)])
            self.assertEqual(self.frames, frames)

    def test_a_waiting_call_that_is_interrupted(self):
        leader = started(self.turns.make, [Call(STATUS)])
        while not self.frames:
            time.sleep(0.001)
        with self.assertRaises(InterruptedError), interrupt_after(0.1):
            self.turns.make([Call(STATUS)])
        self.gate.release(2)
        self.turns.make([Call(STATUS)])
        leader.join(10)
        self.assertEqual(self.frames, [1, 1])

    def test_a_handler_that_asks_within_a_call(self):
        came = []
        before = signal.signal(signal.SIGALRM, lambda *_: came.append(outcome_of(self.turns.make, [Call(STATUS)])))
        self.addCleanup(signal.signal, signal.SIGALRM, before)
        signal.setitimer(signal.ITIMER_REAL, 0.1)
        started(lambda: (time.sleep(0.3), self.gate.release()))
        self.turns.make([Call(STATUS)])
        self.assertEqual((came, self.frames), ([topzerad.Error], [1]))


class Ends(OnPools):
    def test_a_leader_that_is_interrupted(self):
        """Its answer of 1 MiB stays unread. No call gets another one's answer, and none waits for ever."""
        with self.open() as pool:
            pool.transact([create(400), set_length(400, MIB), create(401), write(401, 0, b"one")])
            came = []

            def read_soon():
                time.sleep(0.2)
                came.append(outcome_of(pool.read, 401))

            with stopped(pool):
                threads = [started(read_soon) for _ in range(3)]
                with self.assertRaises(InterruptedError), interrupt_after(0.6):
                    pool.read(400)
                for thread in threads:
                    thread.join(10)
                self.assertEqual(came, [topzerad.Broken] * 3)
            for call in (lambda: pool.read(401), lambda: pool.transact([create(402)]), pool.status):
                self.assertEqual(outcome_of(call), topzerad.Broken)

    def test_a_timeout(self):
        with self.open() as pool:
            pool.transact([create(1)])
            with stopped(pool, 0.5):
                came = []
                threads = [started(lambda: came.append(outcome_of(pool.length, 1))) for _ in range(3)]
                for thread in threads:
                    thread.join(10)
                self.assertEqual(came.count(topzerad.TimedOut) + came.count(topzerad.Broken), 3)
                self.assertIn(topzerad.TimedOut, came)
            self.assertEqual(outcome_of(pool.length, 1), topzerad.Broken)
        pool = Pool(PROGRAM, self.path)
        with self.assertRaises(ProcessLookupError), stopped(pool, 0.5):
            with self.assertRaises(topzerad.TimedOut):
                pool.close()
        pool.close()
        self.assertEqual(outcome_of(pool.status), topzerad.Broken)

    def test_a_process_that_was_killed(self):
        with self.assertRaises(KeyError):
            with self.open() as pool:
                os.kill(pool.pid, signal.SIGKILL)
                self.assertEqual([outcome_of(pool.status) for _ in range(2)], [topzerad.Ended] * 2)
                raise KeyError  # the end of the `with` masks it by no error of its own
        with self.assertRaises(topzerad.Ended):
            with Pool(PROGRAM, self.path, wait=60) as pool:
                os.kill(pool.pid, signal.SIGKILL)

    def test_a_child_of_a_fork(self):
        with self.open() as pool:
            pool.transact([create(1)])
            child = os.fork()
            if not child:
                with contextlib.suppress(BaseException):
                    refused = outcome_of(pool.status) == outcome_of(pool.names) == topzerad.Forked
                    pool.close()
                    os._exit(0 if refused else 1)
                os._exit(2)
            self.assertEqual(os.waitpid(child, 0)[1], 0)
            self.assertEqual(pool.length(1), 0)
            child = os.fork()
            if not child:
                time.sleep(60)  # it has the connection, too, and the parent can close the pool nevertheless
                os._exit(0)
        os.kill(child, signal.SIGKILL)
        os.waitpid(child, 0)

    def test_ignored_ends_of_children(self):
        before = signal.signal(signal.SIGCHLD, signal.SIG_IGN)
        self.addCleanup(signal.signal, signal.SIGCHLD, before)
        with self.open() as pool:
            pool.transact([create(1)])
        with self.assertRaises(FileExistsError):
            create_pool(PROGRAM, self.path, "tank", 77, 64 * MIB)

    def test_errors_are_copied(self):
        """Each thread that waits raises an error of its own."""
        receipt = topzerad.Receipt(3, 9)
        for error in [
            topzerad.Refused(7, 5, 4_194_304, receipt, "cause"),
            topzerad.BadArgument(11, cause="object 6000: 0 to 5291"),
            topzerad.RefusedFrame(1),
            topzerad.Ended("the process ended", 3),
            topzerad.TimedOut("no answer"),
            topzerad.Broken("cut off"),
            *(unusable(number, "cause", "tank.pool") for number in (0, 2, 11, 13, 17, 21)),
        ]:
            self.assertIsInstance(error, topzerad.Error)
            for other in (copy.copy(error), pickle.loads(pickle.dumps(error))):
                self.assertEqual((type(other), str(other), vars(other)), (type(error), str(error), vars(error)))


if __name__ == "__main__":
    PROGRAM = sys.argv[1] if len(sys.argv) > 1 else PROGRAM
    unittest.main(argv=sys.argv[:1] + sys.argv[2:])
