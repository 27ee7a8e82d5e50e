"""Judges what `get`, `ls` and `show --fast` read, and what a damaged block takes with it.

The pools have objects of one level and of two, a hole, a name, objects of two directories, and records in the log.

- On a whole pool they print what the same commands with `--whole`, and `show`, print.
- In each block of the tree a bit is flipped in turn. A command that reads the block is refused 7 with it. Each other
  one prints what it did before. `get --whole`, `ls --whole` and `show` are refused for each of them. Which blocks a
  command reads is worked out here, by another reading of the image.
- `get` of one byte, `ls` and `show --fast` make as many reads of a large pool as of a small one. `cc` compiles a
  `pread64` that notes them (`tools/harness/shims/calls.c`).

Each difference is printed, and then the status is 1. The end prints how many runs were compared.
"""

import os
import pathlib
import re
import subprocess

from tools.harness import shims
from tools.harness.judge import Judge
from tools.harness.pool_files import IN_MEMORY, create, pool_file
from tools.harness.program import add_program, run
from tools.model.layout import DIRECTORY, ENTRIES, INDIRECT, MIB, OBJECTS, RECORD, ROOT, STRIP, TOP, record_of
from tools.model.pool_image import Image, read_pool

SECONDS = 60
NAMED, SMALL, LONG, HOLED, FAR = 1, 2, 3, 4, 200
PUT = {
    SMALL: [(0, b"small" * 1_900)],
    LONG: [(0, b"long" * 100_000)],
    HOLED: [(0, b"h"), (5 * RECORD, b"holed")],
    FAR: [(0, b"far")],
}
LOGGED = [
    "import 1048576",
    "lock 1 2 w 0 100",
    "begin 1 w:2:7:3",
    "commit 0 new",
    "log-write",
    "log-flush",
]
# The most reads of `get` of one byte: four arrays, four configs, root, directory, the next log block, top, indirect and
# data block.
MOST_READS = 14


def damaged(node):
    return f"ztxg: refused 7 Damaged {node.kind} {node.address}\n"


def place_of(node):
    """The object whose block this is, or None for a root or a directory; and whether it leads to the first record."""
    if node.kind in (ROOT, DIRECTORY):
        return None, False
    if node.kind == TOP:
        return node.number, True
    if node.kind == INDIRECT:
        return node.number % OBJECTS, node.number < OBJECTS
    number, record = record_of(node.number)
    return number, record == 0


class Reads(Judge):
    def __init__(self, ztxg, shim, pool):
        super().__init__("path_reads")
        self.ztxg, self.shim, self.pool, self.runs = ztxg, shim, pool, 0

    def run(self, *words, given=b""):
        """The status of a run on the pool, and what it prints."""
        self.runs += 1
        line = [self.ztxg, "-q", words[0], self.pool, *map(str, words[1:])]
        ran = subprocess.run(line, input=given, capture_output=True, timeout=SECONDS)
        return ran.returncode, ran.stdout, ran.stderr

    def out(self, *words):
        """What a run prints that has to be done."""
        status, out, errors = self.run(*words)
        if status != 0:
            self.differ(words, "ends with", status, errors)
        return out

    def ends(self, words, status, out, errors=b""):
        found = self.run(*words)
        if found != (status, out, errors):
            cut = (found[0], found[1][-60:], found[2])
            self.differ(words, "ends with", cut, "and not with", status, out[-60:], errors)

    def make(self):
        """A pool with these objects, and then records in its log."""
        create(self.ztxg, self.pool)
        self.put("@name", 0, b"named" * 1_000)
        for number, parts in PUT.items():
            for offset, content in parts:
                self.put(number, offset, content)
        ran = run([self.ztxg, "script", "--file", self.pool, "-"], LOGGED, SECONDS)
        if ran.status != 0:
            self.differ("the script ends with", ran)

    def put(self, number, offset, content):
        ran = self.run("put", number, "--offset", offset, given=content)
        if ran[0] != 0:
            self.differ("put", number, "ends with", ran)

    def judge_whole(self):
        """What is printed of a whole pool."""
        self.ends(["show", "--fast"], 0, re.sub(rb" used \d+", b"", self.out("show")))
        for words in (["ls"], ["ls", "-l"], ["ls", "--json"]):
            self.ends(words, 0, self.out(*words, "--whole"))
        for number in (0, NAMED, *PUT, "@name"):
            for part in ([], ["--offset", "4000", "--length", "100"], ["--offset", "9999999"], ["--length", "1"]):
                self.ends(["get", number, *part], 0, self.out("get", number, *part, "--whole"))
        for words in (["get", "7"], ["get", "@none"], ["get", "5292"], ["get", SMALL, "--length", "0"]):
            self.ends(words, *self.run(*words, "--whole"))

    def judge_damages(self):
        """What is printed beside each damaged block."""
        whole = pathlib.Path(self.pool).read_bytes()
        nodes = read_pool(Image(whole)).walk.nodes
        listed, shown = self.out("ls"), self.out("show", "--fast")
        got = {number: self.out("get", number) for number in (0, NAMED, *PUT)}
        first = {number: self.out("get", number, "--length", "1") for number in got}
        for node in nodes:
            content = bytearray(whole)
            content[node.address + 2_000] ^= 4
            pathlib.Path(self.pool).write_bytes(content)
            refused = 1, b"", damaged(node).encode()
            self.ends(["show"], *refused)
            self.ends(["get", SMALL, "--whole"], *refused)
            self.ends(["ls", "--whole"], *refused)
            owner, leads_to_first = place_of(node)
            self.ends(["show", "--fast"], *(refused if owner is None else (0, shown)))
            self.ends(["ls"], *(refused if owner in (None, 0) else (0, listed)))
            for number, out in got.items():
                is_above = node.kind == ROOT or node.kind == DIRECTORY and node.number == number // ENTRIES
                self.ends(["get", number], *(refused if is_above or owner == number else (0, out)))
                is_first = is_above or owner == number and leads_to_first
                self.ends(["get", number, "--length", "1"], *(refused if is_first else (0, first[number])))
        pathlib.Path(self.pool).write_bytes(whole)

    def judge_reads(self):
        """How often the file is read, in a small pool and in a large one."""
        with pool_file(IN_MEMORY) as large:
            create(self.ztxg, large, 64 * MIB)
            content = os.urandom(20 * STRIP)
            subprocess.run([self.ztxg, "put", large, "1"], input=content, capture_output=True, timeout=SECONDS)
            for words in (["get", large, "1", "--length", "1"], ["ls", large], ["show", large, "--fast"]):
                count = self.count_reads(words)
                if not 0 < count <= MOST_READS:
                    self.differ(words, "makes", count, "reads, at most", MOST_READS)

    def count_reads(self, words):
        self.runs += 1
        noted = pathlib.Path(f"{self.pool}.calls")
        noted.write_text("")
        environment = self.shim.environment(CALLS_FILE=str(noted), NOTE_READS="1")
        ran = run([self.ztxg, *words], b"", SECONDS, env=environment)
        if ran.status != 0:
            self.differ(words, "ends with", ran.status, ran.error_text())
        return sum(name == "read" for name, _, _ in shims.noted_calls(noted))


def add_arguments(parser):
    add_program(parser)


def main(ztxg):
    with shims.compiled("calls") as shim, pool_file(IN_MEMORY) as pool:
        reads = Reads(ztxg, shim, pool)
        reads.make()
        reads.judge_whole()
        reads.judge_damages()
        reads.judge_reads()
    print(f"{reads.runs} runs, {reads.differences} differences")
    return int(reads.differences > 0)
