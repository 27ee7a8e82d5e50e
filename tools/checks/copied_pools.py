"""Judges what `copy` makes of a pool, whole or damaged.

The pools have objects of one level and of two, holes, a name, objects of three directories, and records in the log: one
hides a whole record of the tree, and one makes an object. A copy is read by the tools' own reader.

- A whole pool is copied object by object, with status 0 and without a line. Only records that have a byte above 0 have
  a block. With `--size` and `--guid` the new pool has these.
- In each block of the tree a bit is flipped in turn. Without `--skip-damaged` a copy is refused 7 with that block, and
  leaves no file. With it, it prints what the block leads to, which is worked out here, and copies all else. A block that
  the log hides is not missed. The same is done with two damaged blocks side by side.
- A file that exists is refused and left as it is. No file is left if the new pool is too small, if there is no old one,
  or if the lines can't be written. The old file stays as it was.

Each difference is printed, and then the status is 1. The end prints how many runs were compared.
"""

import os
import pathlib
import subprocess

from tools.harness.judge import Judge
from tools.harness.pool_files import IN_MEMORY, SIZE, create, pool_file
from tools.harness.program import add_program, run
from tools.model.layout import DIRECTORY, ENTRIES, INDIRECT, MIB, OBJECTS, POINTERS, RECORD, ROOT, TOP, record_of
from tools.model.pool_image import Image, mount, read_pool

SECONDS = 60
NAMED, SMALL, LONG, HOLED, EMPTY, FAR, LOGGED = 1, 2, 3, 4, 5, 200, 300
PUT = {
    SMALL: [(0, b"small" * 3_000)],
    LONG: [(0, b"long" * 100_000)],
    HOLED: [(0, b"h"), (5 * RECORD, b"holed"), (9 * RECORD, bytes(2 * RECORD)), (12 * RECORD, b"end")],
    EMPTY: [],
    FAR: [(0, b"far"), (400_000, b"away")],
}
# The second record of SMALL is written whole in the log, and LOGGED is there alone.
HIDDEN = {(SMALL, 1)}
LOG = [
    "import 16777216",
    "lock 1 2 w 0 10000",
    f"begin 1 w:{SMALL}:7:3 w:{SMALL}:{RECORD}:{RECORD}",
    f"commit 0 new @{RECORD}:x",
    f"lock 1 {LOGGED} w 0 28449792",
    f"begin 1 c:{LOGGED} w:{LOGGED}:5000:5",
    "commit 1 alone",
    # The first record takes two blocks.
    "log-write",
    "log-write",
    "log-write",
    "log-flush",
]


def lost_parts(node, lengths):
    """What a damaged block takes with it: objects from one up to another, or records of an object."""
    if node.kind == ROOT:
        return range(OBJECTS), []
    if node.kind == DIRECTORY:
        return range(ENTRIES * node.number, ENTRIES * (node.number + 1)), []
    if node.kind == TOP:
        number, records = node.number, range(-(-lengths[node.number] // RECORD))
    elif node.kind == INDIRECT:
        strip, number = divmod(node.number, OBJECTS)
        records = range(POINTERS * strip, POINTERS * (strip + 1))
    else:
        number, record = record_of(node.number)
        records = [record]
    last = -(-lengths[number] // RECORD)
    return range(0), [(number, record) for record in records if record < last and (number, record) not in HIDDEN]


def lines_of(nodes, lengths):
    """The lines of these damaged blocks, and the records and objects that they take with them."""
    lines, lost, gone = [], [], set()
    for node in nodes:
        objects, records = lost_parts(node, lengths)
        if objects:
            gone.update(objects)
            lines.append((objects[0], 0, f"damaged objects {objects[0]} {objects[-1]} {node.kind} {node.address}"))
        lost += [(number, record, node) for number, record in records if number not in gone]
    runs = []
    for number, record, node in sorted(lost, key=lambda part: part[:2]):
        if runs and (runs[-1][0], runs[-1][2], runs[-1][3]) == (number, record, node):
            runs[-1][2] = record + 1
        else:
            runs.append([number, record, record + 1, node])
    for number, first, after, node in runs:
        low, high = RECORD * first, min(RECORD * after, lengths[number])
        lines.append((number, low, f"damaged {number} {low} {high} {node.kind} {node.address}"))
    return [line for _, _, line in sorted(lines)], [(number, record) for number, record, _ in lost], gone


def without(objects, lost, gone):
    """The objects without those that are gone, with zeros where records are lost."""
    left = {number: bytearray(content) for number, content in objects.items() if number not in gone}
    for number, record in lost:
        low, high = RECORD * record, min(RECORD * (record + 1), len(left[number]))
        left[number][low:high] = bytes(high - low)
    return {number: bytes(content) for number, content in left.items()}


class Copies(Judge):
    def __init__(self, ztxg, pool):
        super().__init__("copied_pools")
        self.ztxg, self.pool, self.new, self.runs = ztxg, pool, f"{pool}.new", 0

    def run(self, *words, given=b"", **how):
        """The status of a run, and what it prints."""
        self.runs += 1
        how = {"stdout": subprocess.PIPE, **how}
        ran = subprocess.run([self.ztxg, "-q", *words], input=given, stderr=subprocess.PIPE, timeout=SECONDS, **how)
        return ran.returncode, ran.stdout, ran.stderr

    def make(self):
        """A pool with these objects, and then records in its log."""
        create(self.ztxg, self.pool)
        self.put("@name", [(0, b"named" * 1_000)])
        for number, parts in PUT.items():
            self.put(str(number), parts or [(0, b"")])
        ran = run([self.ztxg, "script", "--file", self.pool, "-"], LOG, SECONDS)
        if ran.status != 0 or "refused" in ran.text().replace("refused 20", ""):
            self.differ("the script ends with", ran)

    def put(self, number, parts):
        for offset, content in parts:
            ran = self.run("put", self.pool, number, "--offset", str(offset), given=content)
            if ran[0] != 0:
                self.differ("put", number, "ends with", ran)

    def mounted(self, file):
        """What a file mounts."""
        return mount(read_pool(Image(pathlib.Path(file).read_bytes())))

    def ends(self, words, status, out=b"", errors=b"", is_made=False, **how):
        """How a copy has to end, and whether it leaves a file."""
        found = self.run("copy", self.pool, self.new, *words, **how)
        if found != (status, out, errors):
            self.differ(words, "ends with", found, "and not with", (status, out, errors))
        if os.path.exists(self.new) != is_made:
            self.differ(words, "leaves no file" if is_made else "leaves a file")

    def judge_made(self, words, objects, size=SIZE, guid=None):
        """What the new pool has. The file goes then."""
        if not os.path.exists(self.new):
            return
        made = self.mounted(self.new)
        for number in sorted(set(made.objects) | set(objects)):
            if made.objects.get(number) != objects.get(number):
                self.differ(words, "copies object", number, "otherwise")
        if made.name != b"tank" or os.path.getsize(self.new) != size or made.uberblock.guid == 77:
            self.differ(words, "makes a pool of another name or size, or of the same guid")
        if guid not in (None, made.uberblock.guid):
            self.differ(words, "makes a pool of guid", made.uberblock.guid)
        walk = read_pool(Image(pathlib.Path(self.new).read_bytes())).walk
        for number, content in objects.items():
            parts = (content[at : at + RECORD] for at in range(0, len(content), RECORD))
            written = {record for record, part in enumerate(parts) if any(part)}
            if walk.records.get(number) != written:
                self.differ(words, "gives blocks to other records of object", number)
        if self.run("check", self.new)[0] != 0:
            self.differ(words, "makes a pool that isn't whole")
        os.remove(self.new)

    def judge_whole(self, objects):
        """Copies of the whole pool, and what may stand in their way."""
        for words, size, guid in [
            ([], SIZE, None),
            (["--skip-damaged"], SIZE, None),
            (["--size", "16M", "--guid", "78"], 16 * MIB, 78),
        ]:
            self.ends(words, 0, is_made=True)
            self.judge_made(words, objects, size, guid)
        self.ends(["--size", "7000000"], 1, errors=b"ztxg: refused 8 BadGeometry\n")
        pathlib.Path(self.new).write_bytes(b"there")
        errors = f"ztxg: cannot use {self.new}\n".encode()
        self.ends([], 3, errors=errors, is_made=True)
        if pathlib.Path(self.new).read_bytes() != b"there":
            self.differ("a file that exists is changed")
        os.remove(self.new)

    def judge_damages(self, objects):
        """Copies with each damaged block, and with two of them side by side."""
        whole = pathlib.Path(self.pool).read_bytes()
        nodes = read_pool(Image(whole)).walk.nodes
        data = {record_of(node.number): node for node in nodes if node.kind not in (ROOT, DIRECTORY, INDIRECT, TOP)}
        pairs = [[data[LONG, 3], data[LONG, 4]], [data[LONG, 83], data[LONG, 84]], [data[HOLED, 0], data[HOLED, 5]]]
        for damaged in [*([node] for node in nodes), *pairs]:
            self.judge_damaged(whole, damaged, objects)
        pathlib.Path(self.pool).write_bytes(whole)

    def judge_damaged(self, whole, damaged, objects):
        content = bytearray(whole)
        for node in damaged:
            content[node.address + 2_000] ^= 4
        pathlib.Path(self.pool).write_bytes(content)
        lines, lost, gone = lines_of(damaged, {number: len(bytes_) for number, bytes_ in objects.items()})
        first = f"ztxg: refused 7 Damaged {damaged[0].kind} {damaged[0].address}\n".encode()
        if lines:
            self.ends([], 1, errors=first)
        else:
            self.ends([], 0, is_made=True)
            self.judge_made(damaged, objects)
        out = "".join(f"{line}\n" for line in lines).encode()
        self.ends(["--skip-damaged"], int(bool(lines)), out, is_made=True)
        self.judge_made(damaged, without(objects, lost, gone))
        if lines:
            with open("/dev/full", "wb") as full:
                self.ends(["--skip-damaged"], 3, None, stdout=full)
        if pathlib.Path(self.pool).read_bytes() != content:
            self.differ("a copy changes the old file")

    def judge_refusals(self):
        """A new pool that is too small, and a file without a pool."""
        with pool_file(IN_MEMORY) as large:
            create(self.ztxg, large, 16 * MIB)
            self.pool, small = large, ["--size", "6M"]
            self.put("1", [(0, b"large" * 1_000_000)])
            self.ends(small, 1, errors=b"ztxg: refused 16 NoSpace\n")
            pathlib.Path(large).write_bytes(bytes(SIZE))
            self.ends([], 1, errors=b"ztxg: refused 6 NoPool\n")
            os.remove(large)
            self.ends([], 3, errors=f"ztxg: cannot use {large}\n".encode())


def add_arguments(parser):
    add_program(parser)


def main(ztxg):
    with pool_file(IN_MEMORY) as pool:
        copies = Copies(ztxg, pool)
        copies.make()
        objects = copies.mounted(pool).objects
        copies.judge_whole(objects)
        copies.judge_damages(objects)
        copies.judge_refusals()
    print(f"{copies.runs} runs, {copies.differences} differences")
    return int(copies.differences > 0)
