"""Threads that write to a disk until its server is killed, and what has to be on the disk then."""

import random
import struct
import threading

import nbd

BLOCK = 4096
BLOCKS = 4096  # those that are written; each writer has a share of its own, beside those of the others
COUNTS = (1, 1, 1, 1, 2, 3, 15, 16, 17, 40)


def content_of(block, number):
    return struct.pack("<QQ", block, number) * (BLOCK // 16)


class Ledger:
    """For each block the number of the write that is known to last, and those that may be there after a crash."""

    def __init__(self):
        self.lock = threading.Lock()
        self.lasting = [0] * BLOCKS
        self.possible = [set() for _ in self.lasting]
        self.done = {}
        self.last_number, self.acknowledged = 0, 0

    def begin(self, blocks):
        """The number of a write that begins."""
        with self.lock:
            self.last_number += 1
            for block in blocks:
                self.possible[block].add(self.last_number)
            return self.last_number

    def end(self, blocks, number, is_lasting):
        """A write was acknowledged."""
        with self.lock:
            if is_lasting:
                self._last(dict.fromkeys(blocks, number))
            else:
                self.done.update(dict.fromkeys(blocks, number))

    def begin_flush(self):
        """What a flush that begins now makes durable: all writes that were acknowledged, also to other connections."""
        with self.lock:
            return dict(self.done)

    def end_flush(self, done):
        with self.lock:
            self._last(done)
            for block, number in done.items():
                if self.done.get(block) == number:
                    del self.done[block]

    def _last(self, numbers):
        for block, number in numbers.items():
            if number > self.lasting[block]:
                self.lasting[block] = number
                self.possible[block] = {one for one in self.possible[block] if one > number}
                self.acknowledged += 1

    def compare(self, disk):
        """The blocks that are lost and those that are torn. What is there now has to stay."""
        lost = torn = 0
        for block, lasting in enumerate(self.lasting):
            if block % 256 == 0:
                content = disk.read(block * BLOCK, 256 * BLOCK)
            found = content[block % 256 * BLOCK :][:BLOCK]
            of_block, number = struct.unpack_from("<QQ", found)
            is_whole = found == (content_of(block, number) if number else bytes(BLOCK))
            torn += not is_whole
            lost += is_whole and number != lasting and number not in self.possible[block]
            self.lasting[block], self.possible[block] = number, set()
        self.done = {}
        return lost, torn


class Writer(threading.Thread):
    """Writes blocks of its own until the server is gone: some with FUA, as many as that share says, and now and then it
    flushes."""

    def __init__(self, path, ledger, own, seed, fua_share):
        super().__init__()
        self.disk, self.ledger, self.own, self.random = nbd.Disk(path), ledger, own, random.Random(seed)
        self.fua_share, self.fault = fua_share, None

    def run(self):
        try:
            while True:
                self.write()
                if self.random.random() < 0.1:
                    done = self.ledger.begin_flush()
                    self.disk.flush()
                    self.ledger.end_flush(done)
        except (OSError, nbd.Refused):
            pass  # the server was killed
        except BaseException as fault:  # noqa: B902
            self.fault = fault
        finally:
            self.disk.close()

    def write(self):
        count = self.random.choice(COUNTS)
        first = self.random.randrange(self.own.start, self.own.stop - count + 1)
        blocks = range(first, first + count)
        is_lasting = self.random.random() < self.fua_share
        number = self.ledger.begin(blocks)
        content = b"".join(content_of(block, number) for block in blocks)
        self.disk.write(first * BLOCK, content, fua=is_lasting)
        self.ledger.end(blocks, number, is_lasting)


def start_writers(path, ledger, moment, count=4):
    """So many writers for a moment. At every other one none uses FUA, which might make durable what others flush."""
    fua_share, share = moment % 2 * 0.3, BLOCKS // count
    owned = [range(first, first + share) for first in range(0, BLOCKS, share)]
    writers = [Writer(path, ledger, own, f"{moment} {at}", fua_share) for at, own in enumerate(owned)]
    for writer in writers:
        writer.start()
    return writers
