"""Asks a served pool by frames made by chance, kills the process at chance moments, and compares all answers.

For SECONDS it makes pools of 8 MiB, and asks each by frames of up to six requests (docs/FRAMES.md):
transactions, reads, lengths, lists, and whether a commit is durable. Some frames are malformed. The answers are those
of a serial pool that reads and writes frames from the document alone (`tools/model/frames.py`).

- The group of a receipt, the status and the group of a sync are not compared: two threads sync beside the frames.
- A commit may be durable earlier than the serial pool says, by such a sync, and never later.
- Each process is ended by the end of its input, or killed after a frame was sent and before its answer is read. Then
  the pool is served again. It has all that was answered as durable or came before such an answer, and of the frame that
  was not answered the first transactions, none or all. Such a frame has durable transactions alone.
- Each opening has the pool's guid. No record is replayed of a pool that is new, or whose process was ended by the end
  of its input.

The first difference ends it with status 1.
"""

import copy
import random
import struct
import time

from tools import Failed
from tools.harness.pool_files import create, pool_file
from tools.harness.program import add_program
from tools.harness.served import Served
from tools.model.frames import HEAD, Request, Server, read_answers, read_requests, refused_frame, requests_frame
from tools.model.layout import STRIP

OBJECTS = [0, 1, 2, 62, 63, 5_291]
LENGTHS = [1, 100, 4_032, 4_033, 20_000]
TRANSACTIONS = ("transact", "transact_durably")
CALLS = [*TRANSACTIONS, "read", "length", "objects", "durable", "flush", "name", "sync", "status"]


def some_place(chance, count):
    """One of so many places at the front of an object, or sometimes about its first strip's end if it may be longer."""
    return chance.randrange(count) + (STRIP - count // 2 if chance.random() < 0.2 else 0)


def operation(chance):
    at, kind = chance.choice(OBJECTS), chance.choice("cdlwwww")
    if kind == "w":
        return kind, at, some_place(chance, 30_000), chance.randbytes(chance.choice(LENGTHS))
    return kind, at, some_place(chance, 40_000) if kind == "l" else 0, b""


def request(chance, number, calls):
    call = chance.choice(calls)
    if call in TRANSACTIONS:
        needs = [operation(chance) for _ in range(chance.randint(1, 3))]
    elif call == "read":
        low = some_place(chance, 40_000)
        needs = (chance.choice(OBJECTS), low, low + chance.choice(LENGTHS))
    elif call == "objects":
        needs = (chance.choice(OBJECTS), chance.choice(OBJECTS) + 1)
    elif call == "length":
        needs = (chance.choice(OBJECTS),)
    elif call == "durable":
        needs = (chance.randrange(50), 9)
    else:
        needs = ()
    return Request(number, call, needs)


def is_same(wanted, given):
    """Whether an answer is the serial pool's."""
    if (wanted.number, wanted.came) != (given.number, given.came):
        return False
    if wanted.came in (1, 2):
        return wanted.content[:8] == given.content[:8]
    if wanted.came == 7:
        return wanted.content <= given.content
    return wanted.came in (6, 9) or wanted.content == given.content


def compare(content, wanted, given):
    wanted, given = read_answers(wanted), read_answers(given)
    if isinstance(wanted, int) or isinstance(given, int):
        same = wanted == given
    else:
        same = len(wanted) == len(given) and all(map(is_same, wanted, given))
    if not same:
        raise Failed(f"the frame {content.hex()} is answered\n{given}\nand not\n{wanted}")


def malformed(chance, content):
    """A frame in which a byte behind its length is another one, if it is none then."""
    at = chance.randrange(4, HEAD + 9)
    changed = content[:at] + bytes([content[at] ^ 1 << chance.randrange(8)]) + content[at + 1 :]
    return changed if Server().answer(changed)[6:8] == refused_frame(2)[6:8] else content


def contents(served):
    """The objects of a served pool, with their bytes."""
    served.send(requests_frame([Request(1, "objects", (0, 5_292))]))
    (listed,) = read_answers(served.answer())
    found = {}
    for at, length in struct.iter_unpack("<IQ", listed.content[4:]):
        found[at] = b""
        if length:
            served.send(requests_frame([Request(1, "read", (at, 0, length))]))
            (read,) = read_answers(served.answer())
            found[at] = read.content[4:]
    return found


def after_some(pool, frame):
    """The serial pools of a frame's first transactions, none at first."""
    pools = [copy.deepcopy(pool)]
    for one in read_requests(frame):
        pool = copy.deepcopy(pools[-1])
        pool.make(one)
        pools.append(pool)
    return pools


def serve(ztxg, file, pool, is_synced):
    """A process that serves the pool, whose opening is judged."""
    served = Served(ztxg, file)
    if served.opening.guid != pool.guid or is_synced and served.opening.records:
        raise Failed(f"a pool with the guid {pool.guid}{' that was synced' if is_synced else ''}: {served.opening}")
    return served


def serve_once(ztxg, file, chance, pool):
    """Serves the pool until its process ends. Returns the serial pool then, and how many answers were compared."""
    served, number, count = serve(ztxg, file, pool, is_synced=True), 0, 0
    pool.ordinal = pool.flushed = 0
    for _ in range(chance.randint(1, 40)):
        asked = [request(chance, number + at, CALLS) for at in range(chance.randint(0, 6))]
        number += len(asked)
        content = requests_frame(asked)
        if asked and chance.random() < 0.1:
            content = malformed(chance, content)
        served.send(content)
        compare(content, pool.answer(content), served.answer())
        count += len(asked)
    if chance.random() < 0.5:
        served.end()
        return pool, count
    served.send(requests_frame([Request(0, "flush", ())]))
    served.answer()
    last = requests_frame([request(chance, at, TRANSACTIONS[1:]) for at in range(chance.randint(1, 6))])
    served.send(last)
    time.sleep(chance.random() * 0.002)
    served.kill()
    again = serve(ztxg, file, pool, is_synced=False)
    found = contents(again)
    again.end()
    for after in after_some(pool, last):
        if after.objects == found:
            return after, count
    raise Failed(f"after a kill the pool has {sorted(found)}, with other bytes than of any front of {last.hex()}")


def add_arguments(parser):
    add_program(parser)
    parser.add_argument("seconds", metavar="SECONDS", type=int, nargs="?", default=60, help="how long (60)")
    parser.add_argument("seed", metavar="SEED", type=int, nargs="?", default=1, help="of the chance (1)")


def main(ztxg, seconds, seed):
    chance, ends, compared, processes = random.Random(seed), time.monotonic() + seconds, 0, 0
    while time.monotonic() < ends:
        with pool_file() as file:
            create(ztxg, file)
            pool = Server()
            for _ in range(8):
                pool, count = serve_once(ztxg, file, chance, pool)
                compared, processes = compared + count, processes + 1
    print(f"{processes} processes, {compared} answers, no difference")
