"""Runs each command of the program on files of its own, against `docs/COMMANDS.md`.

What is expected stands there, in `docs/FORMATS.md` ("Refusals") and in `docs/SCRIPTS.md`: the checksums of new files, the
digests of loads and the refusals are read from their tables. Compared are what a command prints, its status, and what the
files hold.

- New files, byte for byte; a file that is there keeps what a create doesn't write.
- What `show`, `check` and `ls` print of a pool that is new, synced, logged, damaged or missing. The moments that are
  stored. Bytes that are put and got. What labels hold. What a script may do at its end.
- Sizes with a letter, `create --size`, long lists, the space of a pool, reports as JSON (`tools/rows/report_rows.py`).
- Faults of the command line, files that can't be used and why, values outside their limits, locks of other processes,
  output that can't be written, standard streams that are closed or terminals.
- A script answers each line before the next one comes. A load shows its progress on a terminal alone, where it is gone
  at the end, and names the objects that it empties. A bench prints numbers that agree, leaves no file, and takes none
  that is there.
- The help and the version.

Each difference is printed, and then the status is 1. The end prints how many runs were compared.
"""

import errno
import fcntl
import hashlib
import os
import pathlib
import pty
import re
import shlex
import shutil
import socket
import subprocess
import tempfile
import time

from tools import TOP
from tools.harness import program
from tools.harness.judge import Judge
from tools.harness.program import Conversation, add_program
from tools.harness.terminal import screen
from tools.model import layout
from tools.model.formats import table
from tools.model.layout import AREA, BLOCK, CONFIG_AT, LABEL, MIB, block_count, slot_places
from tools.model.pool_bytes import number_at
from tools.model.serial_pool import LEAST
from tools.rows.many_groups import many_groups
from tools.rows.report_rows import json_rows, size_rows, sized_rows, space_rows

SIZE = 8 * MIB
SECONDS = 20
LOAD_SECONDS = 300

NEW = "name tank\nguid 77\ngroup 4\nimport 0\nblocks 896 used 0\nrecords 0\nobjects 0\n"
# Object 1 has four bytes, in one block of each of the four kinds. The data block is the second of the area.
SYNCED = "name tank\nguid 77\ngroup 9\nimport 1\nblocks 896 used 4\nrecords 0\nobjects 1\n1 4\n"
DATA = AREA + BLOCK
SYNC = f"""\
import 1048576
lock 1 1 w 0 {layout.MAX_LENGTH}
begin 1 c:1 w:1:0:4
commit 0 abcd
sync
"""
SYNC_ANSWERS = "synced 8 open 9 records 0\nlock 0\ntx 0 group 9\nentry 0 group 9\nsynced 9\n"
# Two records in one log block, and nothing is synced.
LOGGED = "name tank\nguid 77\ngroup 8\nimport 1\nblocks 896 used 1\nrecords 2\nobjects 1\n1 104\n"
LOG = f"""\
import 1048576
lock 1 1 w 0 {layout.MAX_LENGTH}
begin 1 c:1
commit 0
begin 1 w:1:100:4
commit 1 wxyz
log-write
log-flush
"""

LOAD = ["--workers", "3", "--ops", "0", "--seed", "5"]
# The pool's name `a`, ESC, `"`, `\`, `é`, CSI, as a cause has it.
ESCAPED = r'a\x1b\"\\é\x9b'
NOT_REGULAR, IN_USE = "not a regular file", "in use by another process or device"


def flawed(name, at):
    with open(name, "r+b") as file:
        file.seek(at)
        byte = file.read(1)[0]
        file.seek(at)
        file.write(bytes([byte ^ 1]))
    return name


def system(number):
    """The system's words for a failed call."""
    return f"{os.strerror(number)} (os error {number})"


def commands(file):
    """Each command that needs a file."""
    return {
        "create": ["create", file, "tank", "77", str(SIZE)],
        "show": ["show", file],
        "check": ["check", file],
        "load": ["load", file, *LOAD],
        "script": ["script", "--file", file, "-"],
        "put": ["put", file, "1"],
        "ls": ["ls", file],
        "df": ["df", file],
        "get": ["get", file, "1"],
        "rm": ["rm", file, "1"],
        "labels": ["labels", file],
    }


# What stands for options that are not given, in the order of the help, as COMMANDS.md has it.
DEFAULTS = {
    "get": ["0"],
    "load": ["1048576", "256", "0"],
    "serve": ["4194304", "256"],
    "bench": ["ztxg-bench.pool", "64M", "4", "4096", "5", "4194304"],
    "script": ["0"],
}
# These only read their file.
READERS = ("show", "check", "ls", "df", "get", "labels")


class Commands(Judge):
    """Runs of the commands in the current folder."""

    def __init__(self, ztxg):
        super().__init__("commands")
        self.ztxg, self.runs = ztxg, 0

    def run(self, words, script="", seconds=SECONDS, ztxg=None, quiet=True, **process):
        """The status of a run, what it printed, and what it printed on standard error, without causes if it is quiet."""
        self.runs += 1
        words = ["-q", *words] if quiet else words
        ran = program.run([ztxg or self.ztxg, *words], script.splitlines(), seconds, **process)
        return ran.status, ran.text(), ran.error_text()

    def ends(self, words, status, out="", errors="", **how):
        """How a run has to end."""
        found = self.run(words, **how)
        if found != (status, out, errors):
            self.differ(words, "ends with", found, "and not with", (status, out, errors))

    def make(self, name="tank.pool", script=None, answers=None):
        """A new pool in a file, on which a script has run."""
        self.ends(["create", name, "tank", "77", str(SIZE)], 0, "created tank 896 blocks\n")
        if script:
            status, out, errors = self.run(["script", "--file", name, "-"], script)
            if (status, errors) != (0, "") or answers not in (None, out):
                self.differ("the script of", name, "ends with", (status, out, errors))
        return name

    def new_files(self):
        """Files of new pools, byte for byte, and those that a refused create leaves."""
        for words, checksum in table("| command | SHA-256 of FILE |"):
            words = words.replace("FILE", "new.pool").split()
            size = int(words[4])
            self.ends(words, 0, f"created {words[2]} {block_count(size)} blocks\n")
            made = pathlib.Path("new.pool").read_bytes()
            if (len(made), hashlib.sha256(made).hexdigest()) != (size, checksum):
                self.differ(words, "makes another file")
            os.remove("new.pool")
        guid = str(2**64 - 1)
        self.ends(["create", "new.pool", "tank", guid, str(SIZE), "--new"], 0, "created tank 896 blocks\n")
        self.ends(["show", "new.pool"], 0, NEW.replace("77", guid))
        made = pathlib.Path("new.pool").read_bytes()
        self.ends(["create", "new.pool", "pond", "78", str(SIZE), "--new"], 3, errors="ztxg: cannot use new.pool\n")
        for file in ("new.pool", "none.pool", "."):
            for size, name, refusal in [
                (0, "", "8 BadGeometry"),
                (0, "4tank", "8 BadGeometry"),
                (SIZE - 1, "tank", "8 BadGeometry"),
                (6 * MIB - 1, "tank", "8 BadGeometry"),
                *((SIZE, name, "11 BadRange") for name in ("4", "4tank", "-tank", "ta nk", "tank\n", "", "a" * 65)),
            ]:
                self.ends(["create", "--", file, name, "77", str(size)], 1, errors=f"ztxg: refused {refusal}\n")
        if pathlib.Path("new.pool").read_bytes() != made or os.path.exists("none.pool"):
            self.differ("a refused create changes its file")
        for name in ("T-1_a.b", "a" * 64):
            self.ends(["create", "new.pool", name, "77", str(SIZE)], 0, f"created {name} 896 blocks\n")
        # A size that is no number of sectors is the file's, too.
        self.ends(["create", "new.pool", "pond", "77", str(6 * MIB + 44)], 0, "created pond 384 blocks\n")
        if os.path.getsize("new.pool") != 6 * MIB + 44:
            self.differ("a file has another size than it was given")

    def synced_bytes(self):
        """The file after a sync with an object and 121 empty ones, whose uberblocks go on in slot 0 after slot 127."""
        self.ends(["create", "round.pool", "tank", "77", str(LEAST), "--moment", "5"], 0, "created tank 384 blocks\n")
        words = ["script", "--file", "round.pool", "-", "--moment", "6"]
        answers = SYNC_ANSWERS + "".join(f"synced {group}\n" for group in range(10, 131))
        self.ends(words, 0, answers, script=SYNC + "sync\n" * 121)
        if pathlib.Path("round.pool").read_bytes() != bytes(many_groups(LEAST, 5, 6, 6, range(10, 131)).content):
            self.differ("130 groups leave another file")

    def kept_bytes(self):
        """The boot area and the ends of the labels stay; a longer file is cut, a shorter one gets zeros."""
        for before in (16 * MIB, SIZE, MIB):
            pathlib.Path("old.pool").write_bytes(b"\x55" * before)
            self.make("old.pool")
            made = pathlib.Path("old.pool").read_bytes()
            if len(made) != SIZE:
                self.differ("a file has another size than its pool")
            last = SIZE - LABEL
            head = CONFIG_AT
            for low, high in [(0, head), (LABEL, LABEL + head), (2 * LABEL, AREA), (last, last + head)]:
                kept = min(max(before - low, 0), high - low)
                if made[low:high] != b"\x55" * kept + bytes(high - low - kept):
                    self.differ(f"bytes {low} to {high} of a file of {before} bytes don't stay")

    def pools(self):
        for name, shown, checked in [
            (self.make("made.pool"), NEW, "clean group 4 records 0\n"),
            (self.make("synced.pool", SYNC, SYNC_ANSWERS), SYNCED, "clean group 9 records 0\n"),
            (self.make("logged.pool", LOG), LOGGED, "clean group 8 records 2\n"),
        ]:
            self.ends(["show", name], 0, shown)
            self.ends(["ls", name], 0, re.sub(r"(?s).*objects \d+\n", "", shown))
            self.ends(["check", name], 0, checked)
        flawed("synced.pool", DATA + 64)
        refusal = f"refused 7 Damaged 5 {DATA}\n"
        self.ends(["check", "synced.pool"], 1, f"damaged 5 {DATA}\n")
        self.ends(["check", "synced.pool", "--all"], 1, f"damaged 5 {DATA}\n")
        for words in (["show", "synced.pool"], ["ls", "synced.pool", "--whole"]):
            self.ends(words, 1, errors=f"ztxg: {refusal}")
        cause = f"the block of kind 5 at byte {DATA} is damaged"
        for words in (["show", "synced.pool"], ["-v", "show", "synced.pool"]):
            self.ends(words, 1, errors=f"ztxg: {refusal}ztxg: cause: {cause}\n", quiet=False)
        # Of two damages a check tells the first one, or both. The third record's block is the one after the first's.
        self.make("twice.pool", SYNC.replace("w:1:0:4", "w:1:0:4 w:1:8064:4").replace("abcd", "abcd wxyz"))
        self.ends(["check", "twice.pool"], 0, "clean group 9 records 0\n")
        damages = [f"damaged 5 {DATA + BLOCK * at}\n" for at in range(2)]
        flawed(flawed("twice.pool", DATA + 64), DATA + BLOCK + 64)
        self.ends(["check", "twice.pool"], 1, damages[0])
        self.ends(["check", "twice.pool", "--all"], 1, "".join(damages))
        self.ends(["load", "synced.pool", *LOAD], 1, errors=f"ztxg: {refusal}")
        self.ends(["script", "--file", "synced.pool", "-"], 0, refusal, script="import 1048576\n")
        for size, checked, errors in [
            (SIZE, "no pool\n", "6 NoPool"),
            (6 * MIB - 1, "", "8 BadGeometry"),
            (2**30 + LABEL, "", "8 BadGeometry"),
            (0, "", "8 BadGeometry"),
        ]:
            with open("zeros.pool", "wb") as file:
                file.truncate(size)
            errors = f"ztxg: refused {errors}\n"
            self.ends(["check", "zeros.pool"], 1, checked, "" if checked else errors)
            self.ends(["show", "zeros.pool"], 1, errors=errors)
            self.ends(["load", "zeros.pool", *LOAD], 1, errors=errors)

    def objects(self):
        """Bytes that are put are those that are got, also in pieces and in the log, and a refused put says how far it came."""
        name = self.make("objects.pool")
        # An object of two levels of indirect blocks, and one of the greatest length.
        size, most = layout.STRIP + 5_000, layout.MAX_LENGTH
        big = "".join(chr(33 + at % 90) for at in range(size))
        for words, script, out in [
            (["put", name, "7"], "hello", "put 5 bytes in 1 transactions\n"),
            (["put", name, "7", "--offset", "5"], " there", "put 6 bytes in 1 transactions\n"),
            (["get", name, "7"], "", "hello there"),
            (["put", name, "7"], "bye", "put 3 bytes in 1 transactions\n"),
            (["get", name, "7"], "", "bye"),
            (["ls", name], "", "7 3\n"),
            (["put", name, "7"], "hello there", "put 11 bytes in 1 transactions\n"),
            (["get", name, "7", "--offset", "3", "--length", "4"], "", "lo t"),
            (["put", name, "7"], big[:64_513], "put 64513 bytes in 2 transactions\n"),
            (["get", name, "7"], "", big[:64_513]),
            (["put", name, "7"], big, f"put {size} bytes in 6 transactions\n"),
            (["get", name, "7"], "", big),
            (["put", name, "8"], "", "put 0 bytes in 1 transactions\n"),
            (["ls", name], "", f"7 {size}\n8 0\n"),
            (["rm", name, "7"], "", "removed 7\n"),
            (["put", name, "9", "--offset", str(most - 4)], "last", "put 4 bytes in 1 transactions\n"),
            (["ls", name], "", f"8 0\n9 {most}\n"),
            (["get", name, "9"], "", "\0" * (most - 4) + "last"),
            (["rm", name, "9"], "", "removed 9\n"),
            (["ls", name], "", "8 0\n"),
        ]:
            found = self.put(words, script)
            if found != (0, out, ""):
                self.differ(words, "ends with", found[0], found[1][-80:], found[2])
        made = pathlib.Path(name).read_bytes()
        for words, refusal in [
            (["get", name, "7"], "9 NoObject"),
            (["get", name, "5292"], "11 BadRange"),
            (["get", name, "8", "--length", "0"], "11 BadRange"),
            (["get", name, "8", "--offset", str(most)], "11 BadRange"),
            (["put", name, "5292"], "11 BadRange"),
            (["put", name, "8", "--offset", str(most)], "11 BadRange"),
            (["put", name, "8", "--offset", str(most - 1)], "11 BadRange"),
        ]:
            found = self.put(words, "xy")
            if found != (1, "", f"ztxg: refused {refusal}\n"):
                self.differ(words, "ends with", found)
        if pathlib.Path(name).read_bytes() != made:
            self.differ("a refused command on an object changes the file")
        for number, refusal in [("7", "9 NoObject"), ("5292", "11 BadRange")]:
            self.ends(["rm", name, number], 1, errors=f"ztxg: refused {refusal}\n")
        self.ends(["put", "none.pool", "7"], 3, errors="ztxg: cannot use none.pool\n")
        if os.path.exists("none.pool"):
            self.differ("a put makes a file")
        self.ends(["get", self.make("logged.pool", LOG), "1"], 0, "\0" * 100 + "wxyz")
        for number in range(20):
            status, out, errors = self.put(["put", name, str(number)], big)
            if status:
                break
        told = re.fullmatch(r"ztxg: refused 16 NoSpace\n(?:ztxg: committed (\d+) bytes in \d transactions\n)?", errors)
        if (status, out) != (1, "") or not told:
            self.differ("a put into a full pool ends with", (status, out, errors))
        elif told[1]:
            self.ends(["get", name, str(number)], 0, big[: int(told[1])])
        self.ends(["check", name], 0, self.run(["check", name])[1], quiet=False)

    def parts(self):
        """What is synced of an object, and in the log alone."""
        lines = "unlock 1 0\nlock 1 1 w 2 6\nbegin 1 w:1:2:4\ncommit 1 wxyz\nlog-write\nlog-flush\n"
        name = self.make("parts.pool", SYNC + lines)
        for low, count, out in [(0, 6, "abwxyz"), (1, 2, "bw"), (4, layout.MAX_LENGTH, "yz"), (6, 1, ""), (0, 1, "a")]:
            self.ends(["get", name, "1", "--offset", str(low), "--length", str(count)], 0, out)
        self.ends(["get", name, "2", "--length", "1"], 1, errors="ztxg: refused 9 NoObject\n")

    def long_puts(self):
        """A put whose bytes pass the dirty limit, and one for which there is room once what it replaces is free."""
        self.ends(["create", "large.pool", "tank", "77", str(16 * MIB)], 0, "created tank 2944 blocks\n")
        self.ends(["create", "small.pool", "tank", "77", str(LEAST)], 0, "created tank 384 blocks\n")
        for name, size, letter in [
            ("large.pool", 8_000_000, "a"),
            ("small.pool", 900_000, "b"),
            ("small.pool", 900_000, "c"),
        ]:
            done = f"put {size} bytes in {-(-size // 64_512)} transactions\n"
            if (found := self.put(["put", name, "1"], letter * size)) != (0, done, ""):
                self.differ(f"a put of {size} bytes ends with", found)
            self.ends(["get", name, "1"], 0, letter * size)
        # Of 384 blocks 230 are the tree's, and one is the log's. These puts need 506 and 180, and free 228 and 3.
        put = ["put", "small.pool", "1"]
        for words, size in [(put, 2_000_000), ([*put, "--offset", "900000"], 700_000)]:
            if (found := self.put(words, "d" * size)) != (1, "", "ztxg: refused 16 NoSpace\n"):
                self.differ(words, f"of {size} bytes ends with", found)
        self.ends(["get", "small.pool", "1"], 0, "c" * 900_000)
        found = self.put([*put, "--offset", "1000000"], "")
        if found != (0, "put 0 bytes in 0 transactions\n", ""):
            self.differ("a put of no byte ends with", found)

    def put(self, words, text):
        """How a run ends whose input has no newline at its end."""
        self.runs += 1
        words = [self.ztxg, "-q", *words]
        ran = subprocess.run(words, input=text, capture_output=True, text=True, timeout=SECONDS)
        return ran.returncode, ran.stdout, ran.stderr

    def labels(self):
        name = self.make("labels.pool")
        lines = [f"label {n} config tank 77 4 {SIZE}\nlabel {n} uberblocks 1 highest 4\n" for n in range(4)]
        self.ends(["labels", name], 0, "".join(lines) + "active 4 of label 0\n")
        os.truncate(name, 6 * MIB)
        for n in range(4):
            lines[n] = f"label {n} config none zeros\nlabel {n} uberblocks 0\n"
        for n in range(2):
            lines[n] = f"label {n} config none size {SIZE}\nlabel {n} uberblocks 1 highest 4\n"
        self.ends(["labels", name], 0, "".join(lines) + "active 4 of label 0\n")
        flawed(name, CONFIG_AT)
        lines[0] = lines[0].replace(f"size {SIZE}", "check")
        self.ends(["labels", name], 0, "".join(lines) + "active 4 of label 0\n")
        pathlib.Path(name).write_bytes(bytes(6 * MIB))
        zeros = "".join(f"label {n} config none zeros\nlabel {n} uberblocks 0\n" for n in range(4))
        self.ends(["labels", name], 0, zeros + "active none\n")
        self.ends(["check", name, "--all"], 1, "no pool\n")
        os.truncate(name, 6 * MIB - 1)
        self.ends(["labels", name], 1, errors="ztxg: refused 8 BadGeometry\n")
        # A check of all names the labels whose config is gone, and stays as it was otherwise.
        clean = "clean group 4 records 0\n"
        self.make("lost.pool")
        self.ends(["check", "lost.pool", "--all"], 0, clean)
        flawed("lost.pool", LABEL + CONFIG_AT)
        with open("lost.pool", "r+b") as file:
            file.seek(SIZE - LABEL + CONFIG_AT)
            file.write(bytes(BLOCK))
        lost = "label 1 config none check\nlabel 3 config none zeros\n"
        self.ends(["check", "lost.pool", "--all"], 0, clean + lost)
        self.ends(["check", "lost.pool"], 0, clean)
        self.put(["put", "lost.pool", "1"], "abcd")
        flawed(flawed("lost.pool", DATA + 64), CONFIG_AT)
        self.ends(["check", "lost.pool", "--all"], 1, f"damaged 5 {DATA}\nlabel 0 config none check\n")

    def endings(self):
        """A script that stops at a refusal, one that syncs, and commits that aren't durable."""
        script = f"import 1048576\nlock 1 1 w 0 {layout.MAX_LENGTH}\nbegin 1 c:1\ncommit 0\nlength 2\nname\n"
        answers = "lock 0\ntx 0 group {0}\nentry 0 group {0}\nrefused 9 NoObject\n"
        words = ["script", "--file", self.make("ends.pool"), "-"]
        lost = "ztxg: 1 commits are not durable\n"
        head = "synced {} open {} records 0\n".format
        self.ends(words, 0, head(8, 9) + answers.format(9) + "name tank\n", lost, script=script)
        self.ends([*words, "--stop"], 1, head(12, 13) + answers.format(13), lost, script=script)
        self.ends([*words, "--sync"], 0, head(16, 17) + answers.format(17) + "name tank\n", script=script)
        self.ends(["ls", "ends.pool"], 0, "1 0\n")

    def waits(self):
        """A file that another process has is waited for."""
        name = self.make("wait.pool")
        with open(name, "rb") as file:
            fcntl.flock(file, fcntl.LOCK_EX)
            self.ends(["--wait", "1", "show", name], 3, errors=f"ztxg: cannot use {name}\n")
            with subprocess.Popen(
                [self.ztxg, "show", name, "--wait", "10"], stdout=subprocess.PIPE, text=True
            ) as running:
                time.sleep(0.5)
                fcntl.flock(file, fcntl.LOCK_UN)
                out = running.stdout.read()
        if (running.returncode, out) != (0, NEW):
            self.differ("a command that waits ends with", (running.returncode, out))

    def moments(self):
        """The uberblock of group g lies in slot g mod 128 of each label, with its moment from byte 32 on."""
        self.ends(["create", "timed.pool", "tank", "77", str(SIZE), "--moment", "5"], 0, "created tank 896 blocks\n")
        self.ends(["script", "--file", "timed.pool", "-", "--moment", "1700000000"], 0, SYNC_ANSWERS, script=SYNC)
        status, _, _ = self.run(["load", "timed.pool", *LOAD, "--moment", "7"])
        made = pathlib.Path("timed.pool").read_bytes()
        for group, moment in [(4, 5), (8, 1_700_000_000), (9, 1_700_000_000), (13, 7), (14, 7)]:
            for slot in slot_places(SIZE, group):
                if [number_at(made, slot + at) for at in (16, 32)] != [group, moment]:
                    self.differ(f"the uberblock of group {group} hasn't the moment {moment}")
        if status:
            self.differ("a load ends with", status)

    def faults(self):
        self.make("fault.pool")
        before = pathlib.Path("fault.pool").read_bytes()
        past = str(2**64)
        load = ["load", "fault.pool"]
        for words in [
            [],
            ["nothing"],
            ["create", "fault.pool", "tank", "77"],
            ["create", "fault.pool", "tank", past, str(SIZE)],
            ["create", "fault.pool", "tank", "77x", str(SIZE)],
            ["create", "fault.pool", "tank", "77", past],
            ["create", "fault.pool", "tank", "77", str(SIZE), "--moment", past],
            ["create", "fault.pool", "tank", "77", str(SIZE), "--old"],
            ["show"],
            ["show", "fault.pool", "fault.pool"],
            ["check"],
            ["script"],
            ["script", str(SIZE)],
            ["script", past, "-"],
            ["script", str(SIZE), "-", "--file", "fault.pool"],
            ["script", str(SIZE), "-", "--sync"],
            ["script", "--sync", str(SIZE), "-"],
            load,
            [*load, "--workers", "0", "--ops", "0", "--seed", "5"],
            [*load, "--workers", "17", "--ops", "0", "--seed", "5"],
            [*load, "--workers", "1", "--ops", "1000001", "--seed", "5"],
            [*load, "--workers", "1", "--ops", "0", "--seed", past],
            [*load, "--workers", "1", "--ops", "0"],
            [*load, *LOAD, "--dirty", past],
            [*load, *LOAD, "--cache", past],
            ["show", b"\xff"],
            ["bench", "--seconds", past],
            ["bench", "one", "two"],
            ["copy", "fault.pool"],
            ["copy", "fault.pool", "new.pool", "--size", "1x"],
            ["copy", "fault.pool", "new.pool", "--guid", past],
            *([word, "fault.pool", text] for word in ("get", "put", "rm") for text in ("", "1x", "-", str(2**32))),
        ]:
            status, out, errors = self.run(words, quiet=False)
            if (status, out) != (2, "") or not errors:
                self.differ(words, "ends with", (status, out, errors))
        for dirty, refusal in [("4095", "11 BadRange"), ("1099511627777", "11 BadRange"), ("4096", "17 Throttled")]:
            status, out, errors = self.run([*load, *LOAD, "--dirty", dirty])
            if (status, out, errors) != (1, "", f"ztxg: refused {refusal}\n"):
                self.differ("a limit of", dirty, "ends with", (status, out, errors))
            if dirty != "4096" and pathlib.Path("fault.pool").read_bytes() != before:
                self.differ("a refused limit changes the file")
        before = pathlib.Path("fault.pool").read_bytes()
        for cache in ["0", "262145"]:
            status, out, errors = self.run([*load, *LOAD, "--cache", cache])
            if (status, out, errors) != (1, "", "ztxg: refused 11 BadRange\n"):
                self.differ("a cache of", cache, "ends with", (status, out, errors))
            if pathlib.Path("fault.pool").read_bytes() != before:
                self.differ("a refused cache changes the file")

    def unusable(self, words, file, cause, **how):
        """The file can't be used. A second line tells why, unless -q stands before the command's name or after it."""
        fact = f"ztxg: cannot use {file}\n"
        self.ends(words, 3, errors=f"{fact}ztxg: cause: {cause}\n", quiet=False, **how)
        for quiet in (["-q", *words], [words[0], "-q", *words[1:]], [*words, "--quiet"], [*words, "-q", "-v"]):
            self.ends(quiet, 3, errors=fact, quiet=False, **how)

    def read(self, words):
        """How a reader ends that isn't quiet, by how it ends that is: a refusal has a second line."""
        status, out, errors = self.run(words)
        return status, out, f"{errors}ztxg: cause: there is no such object\n" if status else errors

    def limits(self):
        """A value outside its limits is told with them, and a name with its control characters escaped."""
        causes = dict(table("| value outside its limits | CAUSE |"))
        name, most = self.make("limits.pool"), layout.MAX_LENGTH
        make, put, end = ["create", "limited.pool"], ["put", name, "1"], causes["the end E of what is put"]
        for words, refusal, cause in [
            ([*make, "tank", "77", "7000000"], "8 BadGeometry", causes["SIZE"].replace(" S:", " 7000000:")),
            ([*make, "1x", "77", str(SIZE)], "11 BadRange", causes["NAME"].replace("NAME", "1x")),
            ([*make, 'a\x1b"\\é\x9b', "77", str(SIZE)], "11 BadRange", causes["NAME"].replace("NAME", ESCAPED)),
            (["get", name, "9999"], "11 BadRange", causes["OBJECT"].replace(" N:", " 9999:")),
            (["get", name, "1", "--offset", str(most)], "11 BadRange", causes["O"].replace(" O:", f" {most}:")),
            (["get", name, "1", "--length", "0"], "11 BadRange", causes["L"]),
            (["rm", name, "5292"], "11 BadRange", causes["OBJECT"].replace(" N:", " 5292:")),
            (["put", name, "5292"], "11 BadRange", causes["OBJECT"].replace(" N:", " 5292:")),
            ([*put, "--offset", str(most + 1)], "11 BadRange", causes["O"].replace(" O:", f" {most + 1}:")),
            # The line that is put has a newline, too.
            ([*put, "--offset", str(most - 2)], "11 BadRange", end.replace(" E:", f" {most + 1}:")),
            (["load", name, *LOAD, "--dirty", "1"], "11 BadRange", causes["D"].replace(" D:", " 1:")),
            (["load", name, *LOAD, "--cache", "262145"], "11 BadRange", causes["C"].replace(" C:", " 262145:")),
            (["copy", name, "new.pool", "--size", "1"], "8 BadGeometry", causes["SIZE"].replace(" S:", " 1:")),
            (["bench", "--size", "1"], "8 BadGeometry", causes["SIZE"].replace(" S:", " 1:")),
            (["bench", "--workers", "0"], "11 BadRange", causes["W of a bench"].replace(" W:", " 0:")),
            (["bench", "--bytes", "64513"], "11 BadRange", causes["B"].replace(" B:", " 64513:")),
            (["bench", "--seconds", "86401"], "11 BadRange", causes["T"].replace(" T:", " 86401:")),
            (["bench", "--dirty", "1"], "11 BadRange", causes["D"].replace(" D:", " 1:")),
        ]:
            self.ends(words, 1, errors=f"ztxg: refused {refusal}\nztxg: cause: {cause}\n", script="xy", quiet=False)
        cause = causes["an input of more bytes"]
        self.runs += 1
        words = [self.ztxg, "put", name, "1"]
        ran = subprocess.run(words, input=bytes(most + 1), capture_output=True, timeout=SECONDS)
        if (ran.returncode, ran.stderr.decode()) != (1, f"ztxg: refused 11 BadRange\nztxg: cause: {cause}\n"):
            self.differ("an input of", most + 1, "bytes ends with", ran)
        for file, shown in [("\x1b[31m", '"\\x1b[31m"'), ('two\nlines"', '"two\\x0alines\\""'), ('"plain"', '"plain"')]:
            self.ends(["show", file], 3, errors=f"ztxg: cannot use {shown}\n")

    def unusable_files(self):
        os.mkdir("folder")
        os.mkfifo("pipe")
        for file, cause in [
            ("no/file", system(errno.ENOENT)),
            ("folder/" + "x" * 256, system(errno.ENAMETOOLONG)),
            ("folder", NOT_REGULAR),
            ("pipe", NOT_REGULAR),
            ("/dev/null", NOT_REGULAR),
        ]:
            for words in commands(file).values():
                self.unusable(words, file, cause)
        for words in (["script", str(SIZE), "no/script"], ["script", "--file", "no/file", "no/script"]):
            self.unusable(words, "no/script", system(errno.ENOENT))
        pathlib.Path("lines").write_text("create tank 77")
        self.unusable(["script", "--file", "no/file", "lines"], "no/file", system(errno.ENOENT))
        self.ends(["script", str(SIZE), "lines"], 0, "ok\n")
        self.make("held.pool")
        made = pathlib.Path("held.pool").read_bytes()
        self.unusable([*commands("held.pool")["create"], "--new"], "held.pool", system(errno.EEXIST))
        with open("held.pool", "rb") as file:
            for lock, readers in [(fcntl.LOCK_EX, False), (fcntl.LOCK_SH, True)]:
                fcntl.flock(file, lock)
                for name, words in commands("held.pool").items():
                    if readers and name in READERS:
                        self.ends(words, *self.read(words), quiet=False)
                    else:
                        self.unusable(words, "held.pool", IN_USE)
        if pathlib.Path("held.pool").read_bytes() != made:
            self.differ("a file that is held changes")
        os.truncate("held.pool", 0)
        cause = "a pool can't have the size of this device"
        refused = f"ztxg: refused 8 BadGeometry\nztxg: cause: {cause}\n"
        self.ends(["check", "held.pool"], 1, errors=refused, quiet=False)

    def denied_files(self):
        """Files and folders that this user may not use. For root the program runs as nobody does."""
        for name, mode in [("denied", 0o777), ("denied/read", 0o555), ("denied/write", 0o333)]:
            os.mkdir(name)
            os.chmod(name, mode)
        denied = system(errno.EACCES)
        self.make("denied/0.pool")
        os.chmod("denied/0.pool", 0)
        how = {"ztxg": shutil.copy(self.ztxg, "denied/ztxg")}
        if os.geteuid() == 0:
            os.chmod(".", 0o755)
            os.chmod("denied/ztxg", 0o755)
            how.update(user=65_534, group=65_534, extra_groups=[])
        for words in commands("denied/0.pool").values():
            self.unusable(words, "denied/0.pool", denied, **how)
        self.unusable(commands("denied/read/1.pool")["create"], "denied/read/1.pool", denied, **how)
        # This one is made, but a power failure could lose its name.
        file = "denied/write/1.pool"
        self.unusable(commands(file)["create"], file, f"the folder of the file can't be synced: {denied}", **how)
        os.chmod("denied/write", 0o777)
        if os.path.getsize(file):
            self.differ(file, "isn't left empty")
        self.ends(commands(file)["create"], 0, "created tank 896 blocks\n", **how)

    def full_output(self):
        self.make("full.pool")
        with open("/dev/full", "wb") as full:
            for words in [*commands("full.pool").values(), ["--help"], ["--version"], ["load", "--help"]]:
                status, _, errors = self.run(words, "import 1048576\nstatus\n", out=full)
                if status != 3 or errors and "--" not in words[-1]:
                    self.differ(words, "into a full output ends with", (status, errors))
            # Only the line is missing: what it would tell of is done.
            self.run(["put", "full.pool", "7"], "hello", out=full)
            self.ends(["get", "full.pool", "7"], 0, "hello\n")
            self.run(["rm", "full.pool", "7"], out=full)
            self.ends(["get", "full.pool", "7"], 1, errors="ztxg: refused 9 NoObject\n")

    def failed_streams(self):
        """A script whose input fails after some bytes, or whose output after some answers: nothing more is printed."""
        line, answer = b"create t 77\n", "refused 8 BadGeometry\n"
        for count, rest in [(0, b""), (0, line[:6]), (1, b""), (1, line[:6]), (2, b""), (2, line[:11]), (3, b"")]:
            # What the other end wrote is read. Since it leaves a byte unread, the next read fails.
            ours, theirs = socket.socketpair()
            ours.sendall(line * count + rest)
            theirs.send(b"x")
            ours.close()
            with theirs:
                words = [self.ztxg, "script", "0", "-"]
                ran = subprocess.run(words, stdin=theirs, capture_output=True, timeout=SECONDS)
            self.runs += 1
            if (ran.returncode, ran.stdout, ran.stderr) != (3, answer.encode() * count, b""):
                self.differ(f"a script whose input fails after {count} lines ends with", ran)
        for count in range(3):
            self.runs += 1
            with Conversation([self.ztxg, "script", "0", "-"], SECONDS) as running:
                found = [running.ask(line[:-1]) for _ in range(count)]
                running.process.stdout.close()
                running.process.stdin.write(line)
                status = running.process.wait(SECONDS)
            if (status, found) != (3, [answer] * count):
                self.differ(f"a script whose output fails after {count} answers ends with", status, found)

    def closed_streams(self):
        """A standard stream that is closed doesn't give its place to the pool's file: no text goes there."""
        name = self.make("closed.pool")
        for words in [words for words in commands(name).values() if words[0] != "create"]:
            for closed in ("<&-", ">&-", "2>&-"):
                self.runs += 1
                line = f"exec {shlex.join([self.ztxg, *words])} {closed}"
                subprocess.run(["sh", "-c", line], input=b"import 1048576\nstatus\n", capture_output=True, timeout=SECONDS)
                if os.path.getsize(name) != SIZE:
                    self.differ(line, "leaves a file of", os.path.getsize(name), "bytes")
                    os.truncate(name, SIZE)
        status = self.run(["check", name])[0]
        if status:
            self.differ("a pool under closed streams has a check of", status)

    def scripts(self):
        """Each answer comes before the next line. With a file, a crash and a planned failure are no commands."""
        self.runs += 1
        self.make("lines.pool")
        with Conversation([self.ztxg, "script", "--file", "lines.pool", "-"], SECONDS) as running:
            lines = [*SYNC.splitlines(), "fail read 1"]
            answers = [*SYNC_ANSWERS.splitlines(), "line 6: bad command"]
            for line, answer in zip(lines, answers):
                found = running.ask(line)
                if found != answer + "\n":
                    self.differ(line, "prints", found, "before the next line comes")
                    break
            status = running.end()
            if status != 2:
                self.differ("a script with a bad command ends with", status)
        self.ends(["script", "--file", "lines.pool", "-"], 2, "line 1: bad command\n", script="crash\n")

    def loads(self):
        for count, digest in table("| N | digest |"):
            loaded = ["load", self.make("load.pool"), "--workers", "3", "--ops", count, "--seed", "5"]
            found = self.run(loaded, seconds=LOAD_SECONDS)
            if found != (0, f"committed {17 + 16 * int(count)}\ndigest {digest}\n", ""):
                self.differ(loaded, "ends with", found)
        # A reading of the rules in another language has this digest, too. 32 bits don't hold the seed.
        loaded = ["load", self.make("load.pool"), "--workers", "2", "--ops", "17", "--seed", str(2**63 + 6)]
        digest = "19706f79f345039a3c33694766bd726609acfd08cc942250317488d097ec0e98"
        self.ends(loaded, 0, f"committed 289\ndigest {digest}\n", seconds=LOAD_SECONDS)
        # A create is charged 8,192 bytes, and these writes 20,480 bytes each.
        digests = dict(table("| N | digest |"))
        for count, dirty in [("0", 8_192), ("8", 20_480)]:
            loaded = ["load", self.make("load.pool"), "--workers", "2", "--ops", count, "--seed", "5", "--dirty"]
            self.ends([*loaded, str(dirty - 1)], 1, errors="ztxg: refused 17 Throttled\n")
            self.make("load.pool")
            done = f"committed {17 + 16 * int(count)}\ndigest {digests[count]}\n"
            self.ends([*loaded, str(dirty)], 0, done, seconds=LOAD_SECONDS)
        # Objects that are there are emptied, and those of them that have bytes are named before.
        name = self.make("load.pool")
        for number, text in [("17", "kept"), ("16", "b" * 70_000), ("5", "8 bytes."), ("4", "")]:
            self.put(["put", name, number], text)
        emptied = "ztxg: object {} has {} bytes, which the load replaces\n".format
        status, _, errors = self.run(["load", name, *LOAD])
        if (status, errors) != (0, emptied(5, 8) + emptied(16, 70_000)):
            self.differ("a load that empties objects ends with", (status, errors))
        self.ends(["ls", name], 0, "".join(f"{number} 0\n" for number in range(17)) + "17 4\n")
        main, other = pty.openpty()
        words = [self.ztxg, "load", self.make("load.pool"), "--workers", "2", "--ops", "8", "--seed", "5"]
        with subprocess.Popen(words, stdout=subprocess.PIPE, stderr=other) as running:
            os.close(other)
            out = running.stdout.read()
        shown = b"".join(program.terminal_text(main))
        os.close(main)
        percents = [int(found) for found in re.findall(rb"(\d+) percent of the writes are durable", shown)]
        if running.returncode or not out.startswith(b"committed 145\n") or not percents or max(percents) != 100:
            self.differ("a load on a terminal shows", shown)
        if screen(shown) != [""]:
            self.differ("a load leaves on a terminal", screen(shown))

    def benches(self):
        """A bench prints a line for each of its numbers and leaves no file. One that is there is left as it is."""
        names = [name.strip("`") for cell, _ in table("| NAME | VALUE |") for name in cell.split(", ")]
        short = ["bench", "--seconds", "1", "--size", str(SIZE)]
        few = ["new.bench", "--durable", "--workers", "2", "--bytes", "100", "--dirty", "1048576"]
        for words, size in [(short, 4_096), ([*short, *few], 100)]:
            status, out, errors = self.run(words)
            found = {name: int(value) for name, value in (line.split(" ") for line in out.splitlines())}
            if (status, errors, list(found)) != (0, "", names):
                self.differ(words, "ends with", (status, out, errors))
                continue
            seconds, times = found["time"] / 1_000_000, [found[name] for name in names[-3:]]
            times[2] += times[2] // 16
            rates = all(abs(found[f"{name}_per_second"] - found[name] / seconds) <= 1 for name in names[:3])
            whole = found["bytes"] == size * found["commits"] > 0 and found["flushes"] > 0 and 1 <= seconds < SECONDS
            if not rates or not whole or times != sorted(times) or found["longest"] > found["time"]:
                self.differ(words, "has numbers that disagree", found)
        many = ["bench", "--seconds", "1", "--size", str(LEAST), "--workers", "64", "--bytes", "64512"]
        for words, refusal in [([*short, "--dirty", "4096"], "17 Throttled"), (many, "16 NoSpace")]:
            self.ends(words, 1, errors=f"ztxg: refused {refusal}\n")
        with open("/dev/full", "wb") as full:
            if (ended := self.run(short, out=full)) != (3, "", ""):
                self.differ("a bench into a full output ends with", ended)
        made = pathlib.Path(self.make("bench.pool")).read_bytes()
        os.symlink("nowhere", "link.bench")
        for file, cause in [("bench.pool", errno.EEXIST), ("link.bench", errno.EEXIST), ("no/file", errno.ENOENT)]:
            self.unusable([*short, file], file, system(cause))
        left = [name for name in ("ztxg-bench.pool", "new.bench", "nowhere") if os.path.lexists(name)]
        if left or pathlib.Path("bench.pool").read_bytes() != made:
            self.differ("benches leave", left, "or change a file that was there")

    def terminals(self):
        """A put says that it reads from a terminal, and a serve doesn't write to one."""
        name = self.make("terminal.pool")
        main, other = pty.openpty()
        words = [self.ztxg, "put", name, "1"]
        self.runs += 1
        pipe = subprocess.PIPE
        with subprocess.Popen(words, stdin=other, stdout=pipe, stderr=pipe, text=True) as running:
            os.write(main, b"hello\n\x04")
            found = running.communicate(timeout=SECONDS)
        told = "ztxg: reading the object from the terminal, end it with Ctrl-D\n"
        if found != ("put 6 bytes in 1 transactions\n", told):
            self.differ("a put from a terminal ends with", found)
        made = pathlib.Path(name).read_bytes()
        self.runs += 1
        streams = {"stdin": subprocess.DEVNULL, "stdout": other, "stderr": subprocess.PIPE}
        ran = subprocess.run([self.ztxg, "serve", name], timeout=SECONDS, **streams)
        if (ran.returncode, ran.stderr) != (3, b"ztxg: standard output is a terminal, and frames are not text\n"):
            self.differ("a serve to a terminal ends with", ran)
        if pathlib.Path(name).read_bytes() != made:
            self.differ("a serve to a terminal opens its pool")
        os.close(other)
        os.close(main)

    def texts(self):
        """The version and the help, against README.md and the tables of the pages."""
        readme = (TOP / "README.md").read_text()
        version, kit = re.search(r"This is version ([0-9.]+), .*? names `(.*?)`", readme).groups()
        self.ends(["--version"], 0, f"ztxg {version} ({kit})\n", quiet=False)
        names = {(number, name) for number, name, _ in table("| n | name | when |")}
        names |= {("7", "Damaged KIND ADDRESS")}
        for words in [["--help"], *([name, "--help"] for name in [*commands(""), "copy", "serve", "bench"])]:
            status, out, errors = self.run(words, quiet=False)
            if (status, errors) != (0, "") or not out:
                self.differ(words, "ends with", (status, errors))
            wide = [line for line in out.splitlines() if len(line) > 100]
            if wide:
                self.differ(words, "has lines of more than 100 columns", wide)
            if re.findall(r"\[default: (.*?)\]", out) != (defaults := DEFAULTS.get(words[0], [])):
                self.differ(words, "names other defaults than", defaults)
            if words != ["--help"]:
                refusals = out.split("Refusals, with status 1")[1:]
                for found in re.findall(r"^ *(\d+) (\w+(?: KIND ADDRESS)?)  ", "".join(refusals), re.M):
                    if found not in names:
                        self.differ(words, "names", found)
        lines = {word for cell, _ in table("| line | answer |")[:25] for word in [cell.split()[0].strip("`,")]}
        missing = [line for line in lines if not re.search(rf"\b{line}\b", self.run(["script", "--help"])[1])]
        if missing:
            self.differ("the help of a script lacks", missing)


def add_arguments(parser):
    add_program(parser)


def main(ztxg):
    judge = Commands(ztxg)
    with tempfile.TemporaryDirectory() as folder:
        os.chdir(folder)
        judge.new_files()
        judge.synced_bytes()
        judge.kept_bytes()
        judge.pools()
        judge.objects()
        judge.parts()
        judge.long_puts()
        judge.labels()
        judge.endings()
        judge.waits()
        judge.moments()
        judge.faults()
        judge.limits()
        judge.unusable_files()
        judge.denied_files()
        judge.full_output()
        judge.failed_streams()
        judge.closed_streams()
        judge.scripts()
        judge.loads()
        judge.benches()
        judge.terminals()
        judge.texts()
        size_rows(judge)
        sized_rows(judge, SYNC, flawed)
        space_rows(judge)
        json_rows(judge, SYNC, LOG, flawed)
        os.chdir(TOP)
    print(f"{judge.runs} runs of the program, {judge.differences} differences")
    return int(judge.differences > 0)
