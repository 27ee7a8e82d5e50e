"""Kills of the hub, of its server and of its clients. What was acknowledged as durable is there afterwards."""

import os
import random
import signal
import struct
import time

from hubs import Hub, want

from topzerad import Error, Pool, create, write

WRITERS = 3


class Writer:
    """A process that counts up in an object of its own by durable transactions, and tells what was acknowledged."""

    def __init__(self, path, number, first):
        self.number, self.acknowledged = number, first
        self.pipe, told = os.pipe()
        self.process = os.fork()
        if not self.process:
            try:
                self.count_up(path, told)
            finally:
                os._exit(0)
        os.close(told)

    def count_up(self, path, told):
        try:
            with Pool(socket=path) as pool:
                while True:
                    self.acknowledged += 1
                    pool.transact_durably([write(self.number, 0, struct.pack("<Q", self.acknowledged))])
                    os.write(told, b"x")
        except Error:
            pass  # the hub or the server was killed

    def end(self):
        """Waits for its end. Returns how far it was acknowledged."""
        os.waitpid(self.process, 0)
        while told := os.read(self.pipe, 65_536):
            self.acknowledged += len(told)
        os.close(self.pipe)
        return self.acknowledged


def kill(hub, writers, chance):
    """Kills one or more of the processes, and leaves no writer running."""
    victim = chance.choice(["hub", "server", "writer", "hub and server", "stop"])
    server = hub.server
    if victim == "writer":
        os.kill(writers[0].process, signal.SIGKILL)
        time.sleep(0.05)
        want(hub.client().one("flush")[0] == 8, "the hub doesn't answer after the end of a client")
    if victim in ("hub", "hub and server"):
        hub.process.kill()
    if victim in ("server", "writer", "hub and server"):
        os.kill(server, signal.SIGKILL)
    if victim == "stop":
        hub.process.terminate()
    hub.process.wait()
    return victim


def kills(tests):
    chance, counts, found = random.Random(tests.chosen.seed), [0] * WRITERS, []
    folder = None
    for _ in range(tests.chosen.kills):
        hub = Hub(tests, "--wait", "60", folder=folder)
        if folder is None:
            with Pool(socket=hub.path) as pool:
                for at in range(WRITERS):
                    pool.transact_durably([create(at), write(at, 0, bytes(8))])
        folder = hub.folder
        writers = [Writer(hub.path, at, counts[at]) for at in range(WRITERS)]
        time.sleep(chance.random() * 0.4)
        found.append(kill(hub, writers, chance))
        acknowledged = [writer.end() for writer in writers]
        with Pool(tests.program, hub.file, wait=60) as pool:
            for at in range(WRITERS):
                (count,) = struct.unpack("<Q", pool.read(at, 0, 8))
                want(0 <= count - acknowledged[at] <= 1, "after a kill of", found[-1], "object", at, "has", count,
                     "and acknowledged was", acknowledged[at])  # fmt: skip
                counts[at] = count
    want(tests.chosen.kills < 10 or sum(counts) > tests.chosen.kills, "too few commits:", counts)
    print(f"{len(found)} kills, {sum(counts)} durable commits, none lost")
