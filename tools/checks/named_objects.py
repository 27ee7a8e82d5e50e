"""Runs the commands on objects by name on pools of their own, against `docs/FORMATS.md`, "Names of objects".

What is compared: what `put`, `get`, `rm` and `ls` of `@NAME` print, their status and causes; the bytes of object 0,
worked out here; names of 254 and of 255 bytes, a name that stands twice, one that is no UTF-8; that an object 0 of
another use is refused and unchanged; and a name when no number is left.

Each difference is printed, and then the status is 1. The end prints how many runs were compared.
"""

import os
import pathlib
import subprocess
import tempfile

from tools.harness.judge import Judge
from tools.harness.program import add_program
from tools.model.formats import table

SECONDS = 60
SLOT = 256
OBJECTS = 5_292
HEADER = b"topzerad names 1".ljust(SLOT, b"\0")
# The causes, in the order of the table: no name, no table of names, an unknown name, no number.
BAD_NAME, NO_TABLE, UNKNOWN, NO_NUMBER = (cause for _, _, cause in table("| refused | when | CAUSE |"))


def slot_of(name):
    return (len(name).to_bytes(2, "little") + name).ljust(SLOT, b"\0")


class Names(Judge):
    def __init__(self, ztxg):
        super().__init__("named_objects")
        self.ztxg, self.file, self.runs = ztxg, "", 0

    def run(self, words, given=b""):
        self.runs += 1
        words = [os.fsencode(word) for word in words]
        ran = subprocess.run([self.ztxg, *words], input=given, capture_output=True, timeout=SECONDS)
        return ran.returncode, ran.stdout, ran.stderr.decode()

    def make(self, name, size=16 << 20):
        self.file = name
        self.ends(["create", name, "tank", "77", str(size)], None)

    def ends(self, words, out, given=b"", status=0, errors=""):
        """How a run has to end. Its errors begin with `ztxg: `."""
        found = self.run(words, given)
        errors = f"ztxg: {errors}" if errors else ""
        if found != (status, found[1] if out is None else out, errors):
            self.differ(words, "ends with", (found[0], found[1][-80:], found[2]), "and not with", status, out, errors)

    def named(self, command, name, out=b"", given=b"", status=0, errors=""):
        self.ends([command, self.file, b"@" + os.fsencode(name)], out, given, status, errors)

    def refused(self, command, name, refusal, cause, shown=None, given=b""):
        """How a run ends that is refused with this cause, in which the name is shown so."""
        cause = cause.replace("NAME", name if shown is None else shown)
        self.named(command, name, given=given, status=1, errors=f"refused {refusal}\nztxg: cause: {cause}\n")

    def table_is(self, *slots):
        self.ends(["get", self.file, "0"], b"".join([HEADER, *slots]))

    def objects_by_name(self):
        self.make("names.pool")
        self.refused("get", "a", "9 NoObject", UNKNOWN)
        self.ends(["ls", self.file], b"")
        self.named("put", "report.pdf", b"put 5 bytes in 1 transactions\n", b"hello")
        self.named("get", "report.pdf", b"hello")
        self.ends(["ls", self.file], b"0 512\n1 5 report.pdf\n")
        self.table_is(slot_of(b"report.pdf"))
        self.ends(["put", self.file, "2"], None, b"by number")
        big = bytes(range(1, 101)) * 2_000
        self.named("put", "b c\u00e4", b"put 200000 bytes in 4 transactions\n", big)
        self.named("get", "b c\u00e4", big)
        self.named("put", "report.pdf", b"put 3 bytes in 1 transactions\n", b"bye")
        listed = "0 1024\n1 3 report.pdf\n2 9\n3 200000 b c\u00e4\n"
        self.ends(["ls", self.file], listed.encode())
        self.ends(["put", self.file, "@report.pdf", "--offset", "3"], None, b" now")
        self.ends(["get", self.file, "@report.pdf", "--offset", "1", "--length", "4"], b"ye n")
        self.named("rm", "report.pdf", b"removed 1\n")
        self.refused("rm", "report.pdf", "9 NoObject", UNKNOWN)
        self.table_is(bytes(SLOT), bytes(SLOT), slot_of("b c\u00e4".encode()))
        self.named("put", "empty", b"put 0 bytes in 1 transactions\n")
        self.ends(["ls", self.file], "0 1024\n1 0 empty\n2 9\n3 200000 b c\u00e4\n".encode())
        self.ends(["rm", self.file, "1"], b"removed 1\n")
        self.refused("get", "empty", "9 NoObject", "there is no such object")
        self.named("rm", "empty", b"removed 1\n")
        self.ends(["check", self.file], None)
        # An object 0 of no bytes is a table without names.
        self.make("bare.pool")
        self.ends(["put", self.file, "0"], None)
        self.named("put", "a", b"put 1 bytes in 1 transactions\n", b"1")
        self.table_is(slot_of(b"a"))

    def names(self):
        self.make("limits.pool")
        for name in ("", "a/b", "x" * 255, "\u00e4" * 128, "a\tb", "\x7f", "\x85"):
            shown = "".join(f"\\x{ord(c):02x}" if ord(c) < 32 or 127 <= ord(c) < 160 else c for c in name)
            for command in ("get", "put", "rm"):
                self.refused(command, name, "11 BadRange", BAD_NAME, shown, b"1")
        self.ends(["ls", self.file], b"")
        status, out, _ = self.run(["put", self.file, b"@\xff"], b"1")
        if (status, out) != (2, b""):
            self.differ("a name that is no UTF-8 ends with", status, out)
        self.named("put", "x" * 254, b"put 1 bytes in 1 transactions\n", b"1")
        self.named("put", "\u00e4" * 127, b"put 1 bytes in 1 transactions\n", b"2")
        self.named("get", "\u00e4" * 127, b"2")
        self.table_is(slot_of(b"x" * 254), slot_of("\u00e4".encode() * 127))

    def other_uses(self):
        one, two = slot_of(b"one"), slot_of(b"two")
        rows = [b"a", bytes(SLOT), HEADER[:-1] + b"1", HEADER + one[:-1], HEADER + one + one, HEADER + slot_of(b"a/b")]
        rows += [HEADER + slot_of(b"\xff"), HEADER + b"\xff\0" + b"x" * 254, HEADER + b"\0\1" + bytes(254)]
        rows += [HEADER + one[:-1] + b"1", HEADER + bytes(SLOT * OBJECTS)]
        for number, bad in enumerate(rows):
            self.make(f"other_{number}.pool")
            self.ends(["put", self.file, "0"], None, bad)
            self.ends(["put", self.file, "1"], None, b"one")
            made = pathlib.Path(self.file).read_bytes()
            self.refused("get", "one", "11 BadRange", NO_TABLE)
            if pathlib.Path(self.file).read_bytes() != made:
                self.differ("a refused get changes the file")
            for command in ("put", "rm"):
                self.refused(command, "one", "11 BadRange", NO_TABLE, given=b"new")
            self.ends(["get", self.file, "0"], bad)
            self.ends(["ls", self.file], f"0 {len(bad)}\n1 3\n".encode())
        self.make("written.pool")
        self.ends(["put", self.file, "0"], None, HEADER + one + two)
        self.ends(["put", self.file, "2"], None, b"2")
        self.named("get", "two", b"2")
        self.named("put", "one", b"put 1 bytes in 1 transactions\n", b"1")
        self.ends(["ls", self.file], b"0 768\n1 1 one\n2 1 two\n")

    def no_number(self):
        self.make("full.pool", 64 << 20)
        slots = [slot_of(b"%d" % number) for number in range(1, OBJECTS - 1)]
        self.ends(["put", self.file, "0"], None, b"".join([HEADER, *slots]))
        self.named("put", "last", b"put 1 bytes in 1 transactions\n", b"1")
        self.refused("put", "one more", "22 TooMany", NO_NUMBER, given=b"1")
        self.named("rm", "17", b"removed 17\n")
        self.named("put", "one more", b"put 1 bytes in 1 transactions\n", b"2")
        self.named("get", "one more", b"2")


def add_arguments(parser):
    add_program(parser)


def main(ztxg):
    judge = Names(os.path.abspath(ztxg))
    with tempfile.TemporaryDirectory() as room:
        here = os.getcwd()
        os.chdir(room)
        try:
            judge.objects_by_name()
            judge.names()
            judge.other_uses()
            judge.no_number()
        finally:
            os.chdir(here)
    print(f"{judge.runs} runs were compared: {judge.differences} differences")
    return 1 if judge.differences else 0
