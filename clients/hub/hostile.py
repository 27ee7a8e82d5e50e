"""Clients that mean harm, beside one that doesn't."""

import random
import socket
import struct
import threading
import time

from hubs import HEAD, HOLDING, READING_ON, Client, Hub, want

from tools.model.frames import Request, requests_frame
from tools.model.pool_bytes import record

OWN, GOOD = 16, 5_000  # objects of the hostile clients, and of the other one


def framed(items, kind=1, count=1, version=1):
    return struct.pack("<IHHI", HEAD + len(items), version, kind, count) + items


def transaction(content, call=1):
    return struct.pack("<QB", 7, call) + content


def records():
    """Bytes that are no record within its limits."""
    good = record(0, 0, [("c", 1, 0, b"")])
    write = record(0, 0, [("w", 1, 0, b"abc")])
    yield from (b"", good[:3], good[:-1], b"\0" + good[1:], good[:4] + b"\xff" * 8 + good[12:])
    yield good[:12] + b"\xff" * 8 + good[20:]
    yield from (good[:20] + count + good[22:] for count in (b"\0\0", b"\2\0"))
    yield from (good[:22] + bytes([tag]) + good[23:] for tag in (0, 3, 6, 255))
    yield good[:23] + struct.pack("<I", 5_292)
    yield struct.pack("<I", 28) + good[4:] + b"\0"
    yield write[:35] + b"\0\0\0\0" + write[39:]
    yield write[:27] + struct.pack("<Q", 28_449_790) + write[35:]
    yield write[:27] + b"\xff" * 8 + write[35:]
    yield record(0, 0, [("l", 1, 28_449_793, b"")])
    yield from (record(0, 0, [("n", None, 0, name)]) for name in (b"1x", b"a/b", b"a\0", b"x" * 65, b""))


def frames():
    """Frames that are refused, with a true length, and some that are not."""
    flush = requests_frame([Request(1, "flush", ())])
    yield from (framed(flush[HEAD:], version=version) for version in (0, 2, 65_535))
    yield from (framed(flush[HEAD:], kind=kind) for kind in (0, 2, 3, 4, 5, 9, 10, 65_535))
    yield from (framed(struct.pack("<QB", 1, call)) for call in (0, 11, 255))
    yield from (framed(flush[HEAD:][:size]) for size in (0, 1, 8))
    yield from (framed(struct.pack("<QB", 1, call) + b"\0") for call in (3, 4, 5, 7))
    yield from (framed(flush[HEAD:], count=count) for count in (0, 2, 2**32 - 1))
    yield framed(flush[HEAD:] + b"\0")
    yield from (framed(transaction(content, call)) for content in records() for call in (1, 2))
    yield requests_frame([Request(1, "read", (1, 0, 28_449_792))])
    yield requests_frame([Request(1, "read", (1, 0, 2_097_152))] * 2)
    yield requests_frame([Request(1, "objects", (0, 2**32 - 1))] * 70)
    yield requests_frame([Request(1, "flush", ())] * 52_429)
    yield requests_frame([Request(1, "flush", ())] * 3)  # one number thrice
    yield requests_frame([Request(1, "read", (1, 9, 3)), Request(2, "objects", (9, 3))])


def mutated(chance, content):
    """A frame with one byte changed behind its length."""
    at = chance.randrange(4, len(content))
    return content[:at] + bytes([content[at] ^ 1 << chance.randrange(8)]) + content[at + 1 :]


def some_requests(chance):
    calls = [
        ("transact", [("c", OWN, 0, b"")]),
        ("transact", [("w", OWN, chance.randrange(9_000), chance.randbytes(chance.choice([1, 100, 5_000])))]),
        ("transact_durably", [("l", OWN, chance.randrange(20_000), b"")]),
        ("read", (OWN, 0, chance.choice([1, 10_000, 3_000_000]))),
        ("objects", (0, 5_292)),
        ("status", ()),
    ]
    return requests_frame([Request(chance.randrange(3), *chance.choice(calls)) for _ in range(chance.randint(0, 4))])


def some_bytes(chance):
    """What a hostile client sends next, and whether it goes on then."""
    kind, content = chance.random(), some_requests(chance)
    if kind < 0.4:
        return mutated(chance, content), True
    if kind < 0.5:
        return content[: chance.randrange(len(content) + 1)], False
    if kind < 0.6:
        return chance.randbytes(chance.randrange(1, 200)), False
    if kind < 0.65:
        return struct.pack("<I", chance.choice([0, 11, 4_194_305, 2**32 - 1])) + content[4:], False
    if kind < 0.7:
        return content[:6] + struct.pack("<H", chance.choice([HOLDING, READING_ON])) + content[8:], True
    if kind < 0.75:
        return framed(bytes(chance.choice([1_000, 1_000_000, 4_194_292])), count=chance.randrange(2**32)), True
    return content, True


class Hostile(threading.Thread):
    """Connects, sends, and reads or doesn't, again and again until the end."""

    def __init__(self, path, chance, end):
        super().__init__()
        self.path, self.chance, self.end_at, self.fault, self.count = path, chance, end, None, 0

    def run(self):
        try:
            while time.monotonic() < self.end_at:
                self.connect()
        except BaseException as fault:  # noqa: B902
            self.fault = fault

    def connect(self):
        try:
            client = Client(self.path)
        except (OSError, EOFError):
            time.sleep(0.01)
            return
        client.socket.settimeout(0.02)
        try:
            for _ in range(self.chance.randint(1, 20)):
                content, goes_on = some_bytes(self.chance)
                client.send(content)
                self.count += 1
                if not goes_on:
                    break
                if self.chance.random() < 0.8:
                    client.socket.recv(self.chance.choice([1, 100, 100_000]))
            if self.chance.random() < 0.005:
                time.sleep(6)
        except (OSError, socket.timeout):
            pass
        finally:
            client.close()


def chance(tests):
    """Clients by chance. The good one's calls are answered rightly and in time, and the hub's memory is bounded."""
    seed, hub = tests.chosen.seed, Hub(tests, "--max-clients", "8", "--timeout", "5")
    good, end, count = hub.client(), time.monotonic() + tests.chosen.seconds, 0
    threads = [Hostile(hub.path, random.Random(f"{seed} {at}"), end) for at in range(6)]
    for thread in threads:
        thread.start()
    good.one("transact", [("c", GOOD, 0, b"")])
    longest = 0
    while time.monotonic() < end:
        begun, content = time.monotonic(), struct.pack("<Q", count)
        came, _ = good.one("transact_durably", [("w", GOOD, 8 * (count % 50), content)], number=count)
        want(came == 2, "a commit is answered", came)
        came, read = good.one("read", GOOD, 8 * (count % 50), 8 * (count % 50) + 8, number=2**64 - 1 - count)
        want((came, read[4:]) == (3, content), "a read is answered", came, read)
        longest, count = max(longest, time.monotonic() - begun), count + 1
    for thread in threads:
        thread.join()
        want(thread.fault is None, thread.fault)
    want(count > 5 and longest < 60, "the good client was answered", count, "times, at the longest after", longest)
    status = open(f"/proc/{hub.process.pid}/status").read()
    (memory,) = (int(line.split()[1]) for line in status.splitlines() if line.startswith("VmHWM"))
    want(memory < 100 << 10, "the hub had", memory, "KiB")
    print(f"seed {seed}: {sum(thread.count for thread in threads)} hostile frames, {count} rounds, {memory} KiB")
    hub.end()
