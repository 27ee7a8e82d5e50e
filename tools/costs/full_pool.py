"""Times `show`, `check` and an import of a full pool of 1 GiB beside the hashes of its blocks.

The pool is written here, after docs/FORMATS.md and with no code of the program. Each of its 260,992 blocks except 64 is
one of the tree, which has about 5,200 objects. The first 30 have the greatest length, and all others but the last one
have eight records. Each block's bytes are its own. The last 64 blocks are left for the log and for a sync.
FILE is made, or made anew, and stays; without one the pool lies in a temporary file.

Then there are nine rounds, each of four processes, one after the other: `ztxg show FILE`, `ztxg check FILE`, a script
that imports the pool, and HASH_BLOCKS, which reads the same blocks one by one and makes of each the digest that its
check is compared with. So a ratio says what the walk of a tree costs beside hashes that are made one by one. It is
below 1, since a walk hashes four data blocks side by side. A time is user and system seconds of the process. The memory
is the most that was resident: it has to be under 6 MiB. What they print has to be the pool's. Then a script imports the
pool, reads, writes and syncs, and has the digest, for its memory alone: under 8 MiB.

At last `ztxg serve FILE` answers a frame of each call, and one of reads from more objects than its cache has tree
blocks for. Its memory is printed, what is resident then and the most that was: under 8 MiB.

A ratio is that of the least times, and that of the medians is printed beside it. On a busy machine a few rounds tell
little: single ones differ by half. The status is 1 if a ratio is above its bound or the memory not under its own, and 2
if a process does not print the pool's.
"""

import os
import statistics

from tools import Failed
from tools.harness.pool_files import pool_file
from tools.harness.program import add_program, measure, memory_of
from tools.harness.served import Served
from tools.model.frames import CALLS, Request, read_answers, requests_frame
from tools.model import layout
from tools.model.layout import (
    AREA,
    BLOCK,
    CONFIG_AT,
    DATA,
    DIRECTORY,
    ENTRIES,
    INDIRECT,
    MIB,
    OBJECTS,
    PAYLOAD,
    POINTERS,
    RECORD,
    ROOT,
    STRIP,
    TOP,
    block_count,
    data_number,
    label_places,
    levels_of,
    slot_places,
    strip_number,
)
from tools.model.pool_bytes import Pointer, check_of, config, numbers, seal, uberblock

SIZE = 2**30
BLOCKS = block_count(SIZE)
# So many objects have the greatest length, and the others so many records.
LONG, FEW = 30, 8
USED = BLOCKS - 64
NAME, GUID, CREATED, GROUP, IMPORT = b"tank", 77, 4, 9, 1

ROUNDS = 9
# Of each process: the greatest ratio of its time to that of the hash, and the bytes that its memory stays under.
BOUNDS = {"show": (0.95, 6 * MIB), "check": (0.95, 6 * MIB), "import": (0.95, 6 * MIB)}
MEMORY_IN_USE = 8 * MIB
# More objects than the cache of `serve` has tree blocks for.
READS = 300


class Blocks:
    """Writes the blocks of a tree one after the other, from the first one of the area on."""

    def __init__(self, file):
        self.file = file
        self.count = 0
        file.seek(AREA)

    def add(self, kind, index, payload):
        """The bytes of the pointer to a new block."""
        block = seal(kind, GUID, GROUP, index, payload)
        pointer = Pointer(AREA + BLOCK * self.count, GROUP, check_of(block))
        self.file.write(block)
        self.count += 1
        return pointer.bytes()


def record(index):
    """Bytes that no other record has."""
    return numbers(index) * (PAYLOAD // 8)


def write_strip(blocks, index, strip, records):
    """The pointer to the indirect block of so many records of an object's strip."""
    places = [data_number(index, POINTERS * strip + at) for at in range(records)]
    pointers = [blocks.add(DATA, place, record(place)) for place in places]
    return blocks.add(INDIRECT, strip_number(index, strip), b"".join(pointers))


def write_object(blocks, index, records):
    """The directory's entry of an object of so many records."""
    firsts = range(0, records, POINTERS)
    strips = [write_strip(blocks, index, at, min(POINTERS, records - first)) for at, first in enumerate(firsts)]
    levels = levels_of(RECORD * records)
    return numbers(levels, RECORD * records) + (strips[0] if levels == 1 else blocks.add(TOP, index, b"".join(strips)))


def blocks_of(records):
    """The blocks of an object of so many records."""
    return records + len(range(0, records, POINTERS)) + levels_of(RECORD * records) - 1


def records_of_objects():
    """How many records each object has, so that they, their directories and the root are all blocks except 64."""
    counts = []
    left = USED - 1
    while left > 0:
        if len(counts) % ENTRIES == 0:
            left -= 1
        records = layout.MAX_LENGTH // RECORD if len(counts) < LONG else min(FEW, left - 1)
        counts.append(records)
        left -= blocks_of(records)
    return counts


def write_tree(file, counts):
    """The pointer to the root of a tree of these objects."""
    blocks = Blocks(file)
    directories = []
    for first in range(0, len(counts), ENTRIES):
        some = enumerate(counts[first : first + ENTRIES], first)
        entries = [write_object(blocks, index, records) for index, records in some]
        directories.append(blocks.add(DIRECTORY, first // ENTRIES, b"".join(entries)))
    root = blocks.add(ROOT, 0, b"".join(directories))
    if blocks.count != USED:
        raise Failed(f"{blocks.count} blocks in place of {USED}")
    return Pointer.at(root, 0)


def write_labels(file, root):
    for place in label_places(SIZE):
        file.seek(place + CONFIG_AT)
        file.write(config(GUID, CREATED, SIZE, NAME))
    for place in slot_places(SIZE, GROUP):
        file.seek(place)
        file.write(uberblock(GROUP, GUID, root, IMPORT).bytes())


def write_pool(path):
    """Writes the pool, and gives the lines that `show` prints of its blocks and objects."""
    counts = records_of_objects()
    with open(path, "wb") as file:
        file.truncate(SIZE)
        write_labels(file, write_tree(file, counts))
        file.flush()
        os.fsync(file.fileno())
    lines = [f"blocks {BLOCKS} used {USED}", "records 0", f"objects {len(counts)}"]
    lines += [f"{index} {RECORD * records}" for index, records in enumerate(counts)]
    return "".join(line + "\n" for line in lines)


def tell(is_told, what):
    if not is_told:
        raise Failed(f"{what} does not tell the pool", status=2)


def seconds_of_hashes(hasher, path):
    """The seconds in which the hasher reads and hashes the blocks of the pool."""
    printed, cost = measure([hasher, path, str(AREA), str(USED)])
    tell(printed == "wrong 0\n", "the hasher")
    return cost.seconds


def script(ztxg, path, imported, lines=()):
    """What a script on the pool prints, whose first line is its import after so many others, and its cost."""
    printed, cost = measure([ztxg, "script", "--file", path, "-"], ["import 1048576", *lines])
    group = GROUP + 4 * (imported + 1)
    tell(printed.startswith(f"synced {group} open {group + 1} records 0\n"), "import")
    return printed, cost


def use(ztxg, path, imported):
    """The most memory of a script that uses the pool: it removes an object, writes to another one, and syncs."""
    lines = [f"lock 1 {number} w 0 {layout.MAX_LENGTH}" for number in (0, 1)]
    lines += ["begin 1 d:0", "commit 0", "sync", "begin 1 w:1:4030:4"]
    lines += ["commit 1 abcd", "read 1 1 4029 4035", "sync", "digest"]
    printed, cost = script(ztxg, path, imported, lines)
    tell("\ndigest " in printed and "refused" not in printed, "a script")
    return cost.memory


def ask(served, *requests):
    """Asks by one frame, none of whose requests is to be refused."""
    served.send(requests_frame([Request(number, *request) for number, request in enumerate(requests)]))
    answers = read_answers(served.answer())
    tell(not isinstance(answers, int) and [it.came for it in answers] == [CALLS[call] for call, _ in requests], "serve")


def serve(ztxg, path):
    """The memory of a process that serves the pool, once it has answered a frame of each call: what is resident, and
    the most that was. The calls remove an object, then write to another one and read a third."""
    served = Served(ztxg, path)
    tell((served.opening.guid, served.opening.records) == (GUID, 0), "serve")
    ask(served, ("transact", [("d", 1, 0, b"")]))
    ask(served, ("sync", ()))
    ask(served, ("transact_durably", [("w", 2, PAYLOAD - 2, b"abcd")]))
    ask(served, ("read", (3, 0, STRIP)))
    ask(served, ("length", (3,)))
    ask(served, ("objects", (0, OBJECTS)))
    ask(served, ("durable", (0, GROUP)))
    for call in ("flush", "name", "status"):
        ask(served, (call, ()))
    ask(served, *(("read", (4 + number, 0, 1)) for number in range(READS)))
    memory = memory_of(served.process.pid)
    served.end()
    return memory


def judge(ztxg, hasher, path):
    """The status of the rounds on a pool that is written here."""
    wanted = write_pool(path)
    costs, hashes = {word: [] for word in BOUNDS}, []
    for imported in range(ROUNDS):
        for word in BOUNDS:
            if word == "import":
                _, cost = script(ztxg, path, imported)
            else:
                printed, cost = measure([ztxg, word, path])
                tell(word == "check" or printed.endswith(wanted), word)
            costs[word].append(cost)
        hashes.append(seconds_of_hashes(hasher, path))
        times = ", ".join(f"{word} {costs[word][-1].seconds:.2f} s" for word in BOUNDS)
        print(f"{times}, hash {hashes[-1]:.2f} s", flush=True)
    is_above = False
    for word, (most_ratio, memory_bound) in BOUNDS.items():
        times, memory = [cost.seconds for cost in costs[word]], max(cost.memory for cost in costs[word])
        ratio = min(times) / min(hashes)
        medians = statistics.median(times) / statistics.median(hashes)
        print(f"{word}: ratio {ratio:.2f}, at most {most_ratio} (of the medians {medians:.2f}); ", end="")
        print(f"memory {memory / MIB:.1f} MiB, under {memory_bound // MIB}")
        is_above = is_above or ratio > most_ratio or memory >= memory_bound
    in_use = use(ztxg, path, ROUNDS)
    print(f"a pool in use: memory {in_use / MIB:.1f} MiB, under {MEMORY_IN_USE // MIB}")
    resident, most = serve(ztxg, path)
    print(f"a served pool: memory {resident / MIB:.1f} MiB, at most {most / MIB:.1f} MiB, under {MEMORY_IN_USE // MIB}")
    return int(is_above or in_use >= MEMORY_IN_USE or most >= MEMORY_IN_USE)


def add_arguments(parser):
    add_program(parser)
    add_program(parser, "hash_blocks")
    parser.add_argument("file", metavar="FILE", nargs="?", help="where the pool is made and stays (a temporary file)")


def main(ztxg, hash_blocks, file):
    if file:
        return judge(ztxg, hash_blocks, file)
    with pool_file() as path:
        return judge(ztxg, hash_blocks, path)
