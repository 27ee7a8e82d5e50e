"""Notes the calls of a served pool, and judges what a power failure after each of them leaves.

A pool is served, and asked by frames of numbered transactions. Each frame makes its own durable, by their calls, by a
flush or by a sync. A transaction writes its number to two objects, and between them some bytes by chance, of which a
log block has the record or several. Two threads sync beside them. `cc` compiles a `pwrite64`, an `fsync` and a `write`
that note each call on the pool's file with its bytes, and each write of an answer, in one order
(`tools/harness/shims/calls.c`). One more refuses a write or a flush of all rounds but the first
(`tools/harness/shims/refusals.c`): then a round ends.

From these calls the image of each failure is made: after each call, with strings of kept, lost and torn writes over
those that no flush has ended after. `tools/model/pool_image.py` says what it mounts, with nothing of the program. It
has to hold the transactions up to a number and no other ones. No transaction is lost once the first byte goes out of
the frame that answers it as durable, and none is there that wasn't asked for yet. The next round serves the last image
of a round, and finds the same.

The same is judged of a load by four threads, which shows on a terminal how many percent of its writes are durable. An
image has to hold as many, of each stream the first ones. A stream that has begun leaves no stream of the same thread
before it short of a write.

Each difference is printed, and then the status is 1. The end prints how many images were judged.
"""

import bisect
import os
import pathlib
import pty
import random
import re
import struct
import subprocess

from tools.harness import shims
from tools.harness.judge import Judge
from tools.harness.pool_files import IN_MEMORY, create, pool_file
from tools.harness.program import add_program, terminal_text
from tools.harness.served import Served
from tools.model.frames import CALLS, Request, Server, read_answers, requests_frame
from tools.model.layout import OBJECTS
from tools.model.load import BETWEEN, STREAMS, contents, counts_held
from tools.model.pool_image import Damaged, Image, NoPool, mount, read_pool
from tools.model.serial_pool import LEAST
from tools.rows.script_row import all_strings

KINDS = ["write", "flush", "read"]
TORN = b"\xaa"
COUNT = 40
# The transactions of a frame; the bytes of each between its numbers.
FRAME, LENGTHS = [1, 1, 1, 2, 5], [1, 100, 3_000, 4_500, 9_000]
# What makes the transactions of a frame durable: their own calls, or one behind them.
DURABLY = ["transact_durably"] * 6 + ["flush"] * 2 + ["sync"]
# Which call of a kind is refused in a round, counted from the end of its import on.
ROUNDS = [("", 0), ("flush", 1), ("flush", 2), ("write", 1), ("write", 2), ("write", 5), ("flush", 9), ("write", 40)]


# A load.
WORKERS, WRITES, SEED = 4, 16, 5


def held_of(objects, stream):
    """The numbers of first writes of a stream that leave what a pool holds."""
    found = [counts_held(objects, SEED, stream, at) for at in range(0, WRITES + 1, BETWEEN)]
    return {count for held in found for count, _ in held if count <= WRITES}


def first_output(calls, made):
    """The number of the first write to standard output behind so many calls. A frame is sent once the answer to the one
    before was read, so it is the first one of its answer."""
    return next(at for at, (name, _, _) in enumerate(calls[made:], made + 1) if name == "output")


class Numbered:
    """Transactions that are numbered, and the contents of the pool after each."""

    def __init__(self, chance):
        self.chance, self.server, self.after = chance, Server(), []
        self.server.commit([("c", number, 0, b"") for number in range(3)])
        self.after.append(self.server.objects)

    def more(self):
        """The operations of the next transaction."""
        number = struct.pack("<I", len(self.after))
        content = self.chance.randbytes(self.chance.choice(LENGTHS))
        ops = [("w", 0, 0, number), ("w", 1, self.chance.randrange(20_000), content), ("w", 2, 8, number)]
        refusal = self.server.commit(ops)
        assert not refusal
        self.after.append(self.server.objects)
        return ops

    def back_to(self, number):
        """The transactions after this one are forgotten."""
        del self.after[number + 1 :]
        self.server.objects = self.after[number]


class PowerFailures(Judge):
    """Rounds of a served pool in a file."""

    def __init__(self, ztxg, calls, refusals, counts, path, chance):
        super().__init__("power_failures")
        self.chance = chance
        self.ztxg, self.calls, self.refusals, self.counts, self.path = ztxg, calls, refusals, counts, path
        self.noted, self.copied = pathlib.Path(f"{path}.calls"), pathlib.Path(f"{path}.bytes")
        self.images = 0

    def environment(self, kind="", at=0):
        """That of a process whose calls are noted from now on. It may refuse a call."""
        for file in (self.noted, self.copied):
            file.write_bytes(b"")
        self.counts.clear()
        refusing = self.refusals.environment(FAIL_KIND=kind, FAIL_AT=str(at), COUNT_FILE=self.counts.path)
        noting = self.calls.environment(CALLS_FILE=str(self.noted), BYTES_FILE=str(self.copied), NOTE_OUTPUT="1")
        return {**refusing, **noting, "LD_PRELOAD": f"{self.refusals.library} {self.calls.library}"}

    def serve(self, kind="", at=0):
        """A process that serves the pool."""
        return Served(self.ztxg, self.path, env=self.environment(kind, at))

    def made(self):
        """How many calls are noted."""
        return self.noted.read_bytes().count(b"\n")

    def calls_of_import(self):
        """How many calls of each kind a served pool has made before its opening. The file stays as it is."""
        before = pathlib.Path(self.path).read_bytes()
        served = self.serve()
        counts = self.counts.read()
        served.kill()
        pathlib.Path(self.path).write_bytes(before)
        return counts

    def ask(self, served, asked):
        served.send(requests_frame([Request(number, *one) for number, one in enumerate(asked)]))
        return read_answers(served.answer())

    def contents(self, served):
        """The objects of a served pool, with their bytes."""
        (listed,) = self.ask(served, [("objects", (0, OBJECTS))])
        lengths = dict(struct.iter_unpack("<IQ", listed.content[4:]))
        read = self.ask(served, [("read", (number, 0, length or 1)) for number, length in lengths.items()])
        return {number: answer.content[4:] for number, answer in zip(lengths, read)}

    def frame(self, numbered):
        """The requests of a frame that makes its transactions durable."""
        durably, count = self.chance.choice(DURABLY), self.chance.choice(FRAME)
        if durably == "transact_durably":
            return [(durably, numbered.more()) for _ in range(count)]
        return [*(("transact", numbered.more()) for _ in range(count)), (durably, ())]

    def commit(self, served, numbered, count):
        """Commits until so many are made or one is refused. Returns how many calls were noted before each frame, with
        the number of the last transaction before it, and of those whose transactions are answered as durable, with that
        of the last transaction in it."""
        asked, durable = [], []
        ends = len(numbered.after) + count
        while len(numbered.after) < ends:
            asked.append((self.made(), len(numbered.after) - 1))
            frame = self.frame(numbered)
            answers = self.ask(served, frame)
            if [answer.came for answer in answers] != [CALLS[call] for call, _ in frame]:
                break
            durable.append((asked[-1][0], len(numbered.after) - 1))
        return asked, durable

    def strings(self, count):
        """Each string over one write; over more those that keep, lose or tear all, and one by chance."""
        if count <= 1:
            return all_strings(count)
        return [*(letter * count for letter in "klt"), "".join(self.chance.choices("klt", k=count))]

    def images_of(self, before, calls, content):
        """The images that a power failure leaves: after how many calls, the letters, and the image."""
        flushed, unflushed, count, at = bytearray(before), [], 0, 0
        for made, (name, place, size) in enumerate(calls, 1):
            if name == "write":
                unflushed.append((place, content[at : at + size]))
                at += size
            elif name in ("fsync", "fdatasync"):
                count = len(unflushed)
                continue
            elif name == "synced":
                for place, written in unflushed[:count]:
                    flushed[place : place + len(written)] = written
                unflushed = unflushed[count:]
            for letters in self.strings(len(unflushed)):
                image = Image(bytearray(flushed))
                for letter, (place, written) in zip(letters, unflushed):
                    if letter != "l":
                        image.put(place, written if letter == "k" else TORN * len(written))
                yield made, letters, image

    def judge_image(self, what, image, numbered, least, most):
        """The number of the last transaction that an image mounts, which is within these."""
        self.images += 1
        try:
            found = mount(read_pool(image)).objects
        except (NoPool, Damaged) as error:
            found = repr(error)
        fitting = [number for number in range(least, most + 1) if numbered.after[number] == found]
        if not fitting:
            told = found if isinstance(found, str) else "other contents"
            self.differ(f"{what} leaves {told}, and none of the transactions {least} to {most} as the last one")
        return fitting[-1] if fitting else None

    def judge_round(self, title, before, numbered, first, asked, durable):
        """Each image of a round. Returns the last one, with the number of the last transaction that it mounts."""
        calls = shims.noted_calls(self.noted)
        durable = [(first_output(calls, made), number) for made, number in durable]
        for made, letters, image in self.images_of(before, calls, self.copied.read_bytes()):
            least = max([first, *(number for at, number in durable if at <= made)])
            later = bisect.bisect_left([at for at, _ in asked], made)
            most = asked[later][1] if later < len(asked) else len(numbered.after) - 1
            what = f"{title}: a failure after {made} calls with `{letters}`"
            last = self.judge_image(what, image, numbered, least, most)
        return image, last

    # A load

    def load(self):
        """Runs a load. Returns how many percent of its writes were durable after how many calls."""
        words = [self.ztxg, "load", self.path, "--workers", str(WORKERS), "--ops", str(WRITES), "--seed", str(SEED)]
        main, other = pty.openpty()
        shown = []
        with subprocess.Popen(words, stdout=subprocess.PIPE, stderr=other, env=self.environment()) as running:
            os.close(other)
            for text in terminal_text(main):
                shown += [(self.made(), int(percent)) for percent in re.findall(rb"(\d+) percent", text)]
            running.stdout.read()
        os.close(main)
        if running.returncode or not shown or shown[-1][1] != 100:
            self.differ("a load ends with", running.returncode, shown)
        return shown

    def judge_loaded(self, what, objects, percent):
        """What an image of a load holds, of whose writes so many percent were durable."""
        held = [held_of(objects, stream) for stream in range(STREAMS)]
        # A stream reports each eighth write, and these are counted.
        reports = -(-percent * STREAMS * WRITES // BETWEEN // 100)
        if not all(held) or sum(map(max, held)) < BETWEEN * reports:
            self.differ(f"{what} holds {held}, and {percent} percent of the writes were durable")
        for stream in range(WORKERS, STREAMS):
            if held[stream] and min(held[stream]) and WRITES not in held[stream - WORKERS]:
                self.differ(f"{what} holds writes of stream {stream}, and of the one before it only {held}")

    def judge_load(self):
        create(self.ztxg, self.path, LEAST)
        before = pathlib.Path(self.path).read_bytes()
        shown = self.load()
        calls = shims.noted_calls(self.noted)
        for made, letters, image in self.images_of(before, calls, self.copied.read_bytes()):
            self.images += 1
            what = f"a load: a failure after {made} calls with `{letters}`"
            try:
                objects = mount(read_pool(image)).objects
            except (NoPool, Damaged) as error:
                self.differ(f"{what} leaves {error!r}")
                continue
            self.judge_loaded(what, objects, max([0, *(percent for at, percent in shown if at <= made)]))
        if objects != contents(SEED, WRITES):
            self.differ("a load leaves other objects at its end")

    def judge_all(self):
        numbered, first = Numbered(self.chance), 0
        create(self.ztxg, self.path, LEAST)
        served = Served(self.ztxg, self.path)
        self.ask(served, [("transact", [("c", number, 0, b"") for number in range(3)]), ("sync", ())])
        served.end()
        for kind, at in ROUNDS:
            before = pathlib.Path(self.path).read_bytes()
            served = self.serve(kind, self.calls_of_import()[kind] + at if kind else 0)
            if self.contents(served) != numbered.after[first]:
                self.differ(f"{kind} {at}: the next process finds something else")
            asked, durable = self.commit(served, numbered, COUNT)
            served.kill()
            if kind and len(durable) == len(asked):
                self.differ(f"{kind} {at} is refused, and all is durable")
            image, first = self.judge_round(f"{kind} {at}", before, numbered, first, asked, durable)
            if first is None:
                return
            numbered.back_to(first)
            pathlib.Path(self.path).write_bytes(image.content)


def add_arguments(parser):
    add_program(parser)
    parser.add_argument("seed", metavar="SEED", type=int, nargs="?", default=1, help="of the chance (1)")


def main(ztxg, seed):
    with shims.compiled("calls") as calls, shims.compiled("refusals") as refusals:
        with shims.shared_counts(*KINDS) as counts, pool_file(IN_MEMORY) as path:
            failures = PowerFailures(ztxg, calls, refusals, counts, path, random.Random(seed))
            failures.judge_all()
            failures.judge_load()
    print(f"{len(ROUNDS)} rounds and a load, {failures.images} images, {failures.differences} differences")
    return int(failures.differences > 0)
