"""Runs commands on a block device and on a file of its size, and compares what they print, call and leave.

The device is a loop device over a file of zeros, with sectors of 512 bytes and then of 4,096. `losetup` makes it, which
takes root; if none can be made, that is told by name with the cause, and nothing is judged. `cc` compiles what notes
the calls of a run (`tools/harness/shims/calls.c`).

- Pools are made, changed, read, checked and replaced, and some commands are refused. Each command prints on the device
  what it prints on the file, with the same status. It makes the same writes and syncs, but none that sizes the device.
  After each of them device and file have the same bytes.
- So has what the device lies over, once it is detached: a file with the pool.
- A load has the same digest, and a served pool gives the same answers. While it is served, no other command may use
  the device. A create over this pool leaves the same bytes again.
- `create` refuses a SIZE above the device's or below it, and each that no pool may have. The device stays as it was. A
  part of a sector above its size is ignored.
- A device whose size no pool may have is refused 8.
- The commands of docs/USING.md, "Backup", copy a pool and restore it.
- A device that is read-only is read, and refuses each change.
- A device that becomes shorter under a served pool refuses writes and flushes, which the pool says.

Each difference is printed, and then the status is 1.
"""

import contextlib
import os
import pathlib
import re
import shutil
import subprocess
import tempfile

from tools import TOP, Failed
from tools.checks.refused_calls import SHORTER
from tools.harness import program, shims
from tools.harness.judge import Judge
from tools.harness.pool_files import SIZE
from tools.harness.program import add_program
from tools.harness.served import Served
from tools.model.frames import Request, read_answers, refusal_bytes, requests_frame
from tools.model.layout import LABEL, MAX_LENGTH, MIB, OBJECTS

SECONDS = 120
# What scans new block devices may have the lock of one for a moment.
WAIT = ["--wait", "60"]
FILE = "FILE"
MOMENT = ["--moment", "5"]
SIZED = ["--size", str(SIZE)]
CREATE = ["create", FILE, "tank", "77", str(SIZE)]
SCRIPT = [
    "import 1048576",
    f"lock 1 9 w 0 {MAX_LENGTH}",
    "begin 1 c:9 w:9:0:4",
    "commit 0 abcd",
    "log-write",
    "log-flush",
]
# Commands with their statuses, one after the other on one pool, and the lines that they read.
COMMANDS = [
    (0, CREATE),
    (0, ["put", FILE, "1", *MOMENT], "hello"),
    (0, ["put", FILE, "2", *MOMENT], "7" * 400_000),
    (0, ["put", FILE, "@notes", *MOMENT], "by a name"),
    (0, ["get", FILE, "1"]),
    (0, ["get", FILE, "2", "--offset", "399000"]),
    (0, ["get", FILE, "@notes"]),
    (0, ["ls", FILE]),
    (0, ["ls", "--long", FILE]),
    (0, ["df", FILE]),
    (0, ["show", FILE, "--json"]),
    (0, ["labels", FILE]),
    (0, ["check", FILE, "--all"]),
    (0, ["rm", FILE, "2", *MOMENT]),
    (1, ["get", FILE, "2"]),
    (0, ["script", "--file", FILE, "-"], *SCRIPT),
    (0, ["check", FILE]),
    (0, ["script", "--file", FILE, "--sync", "-"], *SCRIPT[:1]),
    (0, ["get", FILE, "9"]),
    (3, [*CREATE, "--new"]),
    (3, ["create", FILE, *SIZED]),
    (0, ["create", FILE, *SIZED, "--name", "pond", "--guid", "78", "--force", *MOMENT]),
    (0, ["show", FILE]),
    (0, CREATE),
]
LOAD = ["load", FILE, "--workers", "2", "--ops", "20", "--seed", "5"]
# A load makes the objects 0 to 16.
SERVED = 30
MADE = [("c", SERVED, 0, b""), ("w", SERVED, 0, b"served")]
REPLACED = "ztxg: FILE has a pool, which is replaced"
UNUSABLE = "ztxg: cannot use FILE\nztxg: cause: {}\n"
NOT_SIZED, IN_USE = "the file didn't get its size", "in use by another process or device"
SECTORS = [512, 4_096]
# A device of this size can't have a pool.
ODD = SIZE + 100 * 512
BACKUP = re.compile(r"^## Backup\n(.*?)^## ", re.M | re.S)
# A system refuses to open a read-only device for writing, or to write to it.
READ_ONLY = re.compile(
    rf"(?:{REPLACED}\n)?"
    r"ztxg: (?:refused 3 Write\nztxg: cause: write at byte \d+: |cannot use FILE\nztxg: cause: )"
    r"(?:Operation not permitted|Permission denied|Read-only file system) \(os error \d+\)\n"
)


def losetup(*words):
    how = {"stdin": subprocess.DEVNULL, "capture_output": True, "text": True, "timeout": SECONDS}
    return subprocess.run(["losetup", *words], **how)


@contextlib.contextmanager
def loop(below, *options):
    """A loop device over a file."""
    made = losetup("--find", "--show", *options, str(below))
    if made.returncode:
        raise Failed(f"no loop device was made: {made.stderr.strip()}", status=2)
    try:
        yield made.stdout.strip()
    finally:
        losetup("--detach", made.stdout.strip())


def zeros(path, size=SIZE):
    """A new file of so many zeros."""
    with open(path, "xb") as file:
        file.truncate(size)
    return path


def why_no_loops(folder):
    """Why no loop device can be made here, or nothing."""
    if not shutil.which("losetup"):
        return "losetup not installed"
    try:
        with loop(zeros(folder / "tried", MIB)):
            return ""
    except Failed as failed:
        return failed.reason


def content(path):
    return pathlib.Path(path).read_bytes()


def first_difference(found, wanted):
    """Where two lists differ first, with what stands there."""
    at = next((at for at, (one, other) in enumerate(zip(found, wanted)) if one != other), min(len(found), len(wanted)))
    return f"at {at} of {len(found)}: {found[at : at + 1]} and not {wanted[at : at + 1]} of {len(wanted)}"


def ask(served, requests):
    """What came of each request of a frame, with its content."""
    served.send(requests_frame([Request(at, *request) for at, request in enumerate(requests)]))
    return [(answer.came, answer.content) for answer in read_answers(served.answer())]


class BlockDevices(Judge):
    """Runs on block devices and on a file. All are files of a folder, or lie over one."""

    def __init__(self, ztxg, shim, folder):
        super().__init__("block_devices")
        self.ztxg, self.shim, self.folder, self.runs = ztxg, shim, folder, 0
        self.noted = folder / "calls"

    def run(self, path, words, lines=()):
        """How a run on a path ends, as text in which FILE stands for the path."""
        self.runs += 1
        self.noted.write_text("")
        words = [str(path) if word == FILE else word for word in words]
        environment = self.shim.environment(CALLS_FILE=str(self.noted))
        ran = program.run([self.ztxg, *words], lines, SECONDS, env=environment)
        return ran.status, ran.text(), ran.error_text().replace(str(path), FILE)

    def ends(self, path, words, status, out="", errors=""):
        """How a run has to end."""
        found = self.run(path, words)
        if found != (status, out, errors):
            self.differ(f"{words} on {path} ends with", found, "and not with", (status, out, errors))

    def with_calls(self, path, words, lines):
        return self.run(path, [*WAIT, *words], lines), shims.noted_calls(self.noted)

    def same(self, device, file, status, words, *lines):
        """A command has to end on the file with this status, and has to do the same on the device."""
        wanted, calls = self.with_calls(file, words, lines)
        found, others = self.with_calls(device, words, lines)
        if wanted[0] != status:
            self.differ(f"{words} on a file ends with", wanted)
        if found != wanted:
            self.differ(f"{words} on a device ends with", found, "and on a file with", wanted)
        calls = [call for call in calls if call[0] != "size"]
        if others != calls:
            self.differ(f"the calls of {words} on a device differ", first_difference(others, calls))
        self.have_same_bytes(f"{words} leaves", device, file)

    def have_same_bytes(self, what, *paths):
        first, second = map(content, paths)
        if first != second:
            self.differ(what, "other bytes on a device than in a file,", first_difference(first, second))

    def stays(self, device, judge):
        """What is judged leaves the device as it was."""
        before = content(device)
        judge(device)
        if content(device) != before:
            self.differ(f"{judge.__name__} changes the device")

    def pools(self, sector):
        """One pool on a device with sectors of so many bytes, and in a file; and what the device lies over then."""
        below, file = zeros(self.folder / f"below {sector}"), self.folder / f"file {sector}"
        with loop(below, "--sector-size", str(sector)) as device:
            for status, words, *lines in COMMANDS:
                self.same(device, file, status, words, *lines)
            self.stays(device, self.sizes)
            self.threads(device, file)
            self.same(device, file, 0, CREATE)
            self.same(device, file, 0, ["put", FILE, "1", *MOMENT], "kept")
            self.backup(device)
        self.have_same_bytes("the file below has", below, file)
        self.same(below, file, 0, ["check", FILE])

    def sizes(self, device):
        """Sizes that a device with a pool doesn't have."""
        for size in (SIZE + LABEL, SIZE - LABEL, 2**30):
            self.is_not_sized(device, ["create", FILE, "tank", "77", str(size)])
            self.is_not_sized(device, ["create", FILE, "--size", str(size), "--force"])

    def is_not_sized(self, device, words):
        """A create is refused, since the device has another size. So no pool is replaced, and none is said to be."""
        self.ends(device, [*WAIT, *words], 3, errors=UNUSABLE.format(NOT_SIZED))

    def threads(self, device, file):
        """What threads do in an order of their own: the same is answered, and the bytes may differ."""
        load = [self.run(path, [*WAIT, *LOAD]) for path in (device, file)]
        if load[0] != load[1] or load[0][0] != 0:
            self.differ("a load on a device prints", load[0], "and on a file", load[1])
        answers = [self.served(path) for path in (device, file)]
        if answers[0] != answers[1] or answers[0][0] != 2:
            self.differ("a pool on a device answers", answers[0], "and in a file", answers[1])
        for words in (["ls"], ["get", str(SERVED)]):
            command = [*WAIT, words[0], FILE, *words[1:]]
            found, wanted = (self.run(path, command) for path in (device, file))
            if found != wanted or found[0] != 0:
                self.differ(f"{words} on a device prints", found, "and on a file", wanted)

    def served(self, path):
        """What a served pool answers, which nobody else may use meanwhile."""
        served = Served(self.ztxg, str(path), *WAIT)
        came = ask(served, [("transact_durably", MADE)])[0][0]
        answers = ask(served, [("read", (SERVED, 0, 6)), ("objects", (0, OBJECTS)), ("name", ())])
        for words in (["put", FILE, "1"], ["show", FILE], CREATE):
            self.ends(path, words, 3, errors=UNUSABLE.format(IN_USE))
        served.end()
        return came, answers

    def backup(self, device):
        """The commands of the page copy the pool on a device, and restore it after a change."""
        copy, restore = re.findall(r"(?:^    .*\n)+", BACKUP.search((TOP / "docs/USING.md").read_text())[1], re.M)
        before = content(device)
        self.shell(device, copy)
        self.have_same_bytes("the copy has", device, self.folder / "backup.pool")
        self.ends(device, [*WAIT, "rm", FILE, "1"], 0, "removed 1\n")
        self.shell(device, restore)
        if content(device) != before:
            self.differ("what was restored differs from what was copied")

    def shell(self, device, line):
        environment = {**os.environ, "PATH": f"{os.path.dirname(self.ztxg)}:{os.environ['PATH']}"}
        words = ["sh", "-c", line.replace("tank.pool", device)]
        ran = program.run(words, (), SECONDS, env=environment, cwd=self.folder)
        if ran.status != 0 or ran.errors:
            self.differ(line, "ends with", ran)

    def odd_size(self):
        """A device whose size no pool may have."""
        with loop(zeros(self.folder / "odd", ODD)) as device:
            self.stays(device, self.has_no_pool)

    def has_no_pool(self, device):
        refused = "ztxg: refused 8 BadGeometry\n"
        for words in (["show", FILE], ["check", FILE], ["create", FILE, "tank", "77", str(ODD)]):
            self.ends(device, ["-q", *WAIT, *words], 1, errors=refused)
        self.is_not_sized(device, CREATE)

    def part_of_sector(self):
        """A size with a part of a sector more than the device has."""
        with loop(zeros(self.folder / "whole")) as device:
            words = ["create", FILE, "tank", "77", str(SIZE + 511)]
            self.ends(device, [*WAIT, *words], 0, "created tank 896 blocks\n")

    def read_only(self):
        """A device that may only be read, over the file that a pool was made in."""
        with loop(self.folder / f"below {SECTORS[0]}", "--read-only") as device:
            self.stays(device, self.is_only_read)

    def is_only_read(self, device):
        self.ends(device, ["get", FILE, "1"], 0, "kept\n")
        self.ends(device, ["ls", FILE], 0, "1 5\n")
        for words in (["put", FILE, "1"], ["rm", FILE, "1"], CREATE, ["create", FILE, *SIZED, "--force"]):
            status, out, errors = self.run(device, [*WAIT, *words], ["more"])
            if status not in (1, 3) or out or not READ_ONLY.fullmatch(errors):
                self.differ(f"{words} on a read-only device ends with", (status, out, errors))

    def shorter(self):
        """A device that becomes shorter while its pool is served."""
        below = zeros(self.folder / "shorter")
        with loop(below) as device:
            self.ends(device, [*WAIT, *CREATE], 0, "created tank 896 blocks\n")
            served = Served(self.ztxg, device, "-v", *WAIT)
            os.truncate(below, SIZE // 4)
            losetup("--set-capacity", device)
            ((_, answer),) = ask(served, [("transact_durably", MADE)])
            if answer[-17:] not in (refusal_bytes(3), refusal_bytes(5)):
                self.differ("a commit on a device that became shorter is answered", answer)
            out, errors = served.process.communicate(timeout=SECONDS)
            status = served.process.returncode
            if (status, out) != (1, b"") or not re.fullmatch(SHORTER, errors.decode()):
                self.differ("a pool on a device that became shorter ends with", (status, out, errors))


def add_arguments(parser):
    add_program(parser)


def main(ztxg):
    with tempfile.TemporaryDirectory() as name, shims.compiled("calls") as shim:
        folder = pathlib.Path(name)
        if why := why_no_loops(folder):
            print(f"skipped block_devices: {why}")
            return 0
        judge = BlockDevices(ztxg, shim, folder)
        for sector in SECTORS:
            judge.pools(sector)
        judge.odd_size()
        judge.part_of_sector()
        judge.read_only()
        judge.shorter()
    print(f"{judge.runs} runs, {judge.differences} differences")
    return int(judge.differences > 0)
