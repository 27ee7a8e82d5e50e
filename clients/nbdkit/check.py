#!/usr/bin/env python3
"""Tests the disk by programs that use disks: `check.py [--program PROGRAM] [--plugin FILE] [--kills N] [--install]`.

The program is `ztxg`, or the stand-in for it, which is taken if none is given. `--kills` is the number of moments at
which nbdkit is killed, and at which the program is, 20 if not given. `--install` installs what is missing, by apt-get.
What needs a command that isn't there is skipped. Names of tests after the options choose these alone.

`--sectors N` runs none of these tests: it kills nbdkit and the program until N sectors of 512 bytes were acknowledged,
a million if N is not given, and counts the blocks that are lost or torn."""

import argparse
import contextlib
import errno
import itertools
import json
import math
import os
import pathlib
import random
import shutil
import signal
import struct
import subprocess
import sys
import tempfile
import threading
import time

HERE = pathlib.Path(__file__).resolve().parent
sys.path[:0] = [str(HERE), str(HERE.parent / "python"), str(HERE.parent.parent)]

import kills  # noqa: E402
import nbd  # noqa: E402
import topzerad  # noqa: E402
from tools.harness.shims import compiled  # noqa: E402
from tools.model.pool_bytes import read_records  # noqa: E402

PACKAGES = "nbdkit nbdkit-plugin-dev libnbd-bin qemu-utils fio e2fsprogs".split()
KIB, MIB = 1 << 10, 1 << 20
BLOCK, PART = 4 * KIB, 335_872
FRONT, FRONTS = 4_032, 8_064  # the bytes of a block's front, and where the fronts begin in a part's object
SECTOR = 512
MOMENTS_OF_POOL = 10  # kills before a new pool is made
STAND_IN = str(HERE.parent / "stand_in")

os.environ["PATH"] += ":/usr/sbin:/sbin"  # mkfs and fsck


def run(*words, status=0):
    """Runs a command, and returns what it printed. Another exit status than this one is a fault."""
    done = subprocess.run([str(word) for word in words], stdout=subprocess.PIPE, stderr=subprocess.STDOUT, timeout=300)
    text = done.stdout.decode(errors="replace")
    if done.returncode != status:
        raise AssertionError(f"{' '.join(map(str, words))}: status {done.returncode}\n{text}")
    return text


class Tank:
    """A pool in a file, and the disk in it."""

    def __init__(self, options, folder):
        self.options, self.folder = options, folder
        self.pool, self.socket, self.log = folder / "tank.pool", folder / "socket", folder / "log"
        self.uri = f"nbd+unix:///?socket={self.socket}"

    def create(self, size=256 * MIB):
        self.pool.unlink(missing_ok=True)
        run(self.options.program, "create", self.pool, "tank", 77, size)

    def start(self, *words):
        """Starts nbdkit with the disk, and returns its process once it answers."""
        self.socket.unlink(missing_ok=True)
        words = [f"file={self.pool}", f"program={self.options.program}", *words]
        with open(self.log, "ab") as log:
            process = subprocess.Popen(["nbdkit", "-f", "-U", self.socket, self.options.plugin, *words], stderr=log)
        end = time.monotonic() + 60
        while process.poll() is None and time.monotonic() < end:
            try:
                nbd.Disk(self.socket).close()
                return process
            except OSError:
                time.sleep(0.02)
        process.kill()
        process.wait()
        raise AssertionError(f"nbdkit did not start\n{self.log.read_text(errors='replace')}")

    def stop(self, process):
        process.terminate()
        if process.wait(timeout=60) != 0:
            raise AssertionError(f"nbdkit ended with status {process.returncode}")

    @contextlib.contextmanager
    def served(self, *words):
        """Serves the disk, and then closes it."""
        process = self.start(*words)
        try:
            yield self
            self.stop(process)
        finally:
            process.kill()
            process.wait()

    @contextlib.contextmanager
    def disk(self):
        """A connection to the disk."""
        disk = nbd.Disk(self.socket)
        try:
            yield disk
        finally:
            disk.close()

    def refusal(self, *words):
        """What nbdkit says when it refuses these options."""
        self.socket.unlink(missing_ok=True)
        words = [f"file={self.pool}", f"program={self.options.program}", *words]
        return run("nbdkit", "-f", "-U", self.socket, self.options.plugin, *words, status=1)


def processes_of(parent):
    """The numbers of the processes that a process has started."""
    found = []
    for stat in pathlib.Path("/proc").glob("[0-9]*/stat"):
        with contextlib.suppress(OSError):
            fields = stat.read_text().rpartition(")")[2].split()
            if int(fields[1]) == parent:
                found.append(int(stat.parent.name))
    return found


def is_refused(number, call, *words):
    try:
        call(*words)
    except nbd.Refused as refused:
        return refused.number == number
    return False


def content(size, seed):
    return random.Random(seed).randbytes(size)


# The tests. Each has a pool of its own, and says what it did. The commands that it needs follow its name.


def options(tank):
    wrong = {
        "size=1777102848": "at most 1777098752 bytes",
        "size=5000": "a multiple of 4096",
        "size=0": "a multiple of 4096",
        "dirty=1048575": "no dirty limit",
        "dirty=1048577M": "no dirty limit",
        "cache=0": "no size of a cache",
        "cache=5000": "no size of a cache",
        "cache=1048580K": "no size of a cache",
        "colour=red": "no option colour",
        "ro=true": "no disk yet",
        "program=/": "can't be started",
    }
    for word, text in wrong.items():
        assert text in tank.refusal(word), word
    assert "no disk yet" in tank.refusal()
    with tank.served("size=64M"), tank.disk() as disk:
        assert disk.size == 64 * MIB
    with tank.served(), tank.disk() as disk:
        assert disk.size == 64 * MIB
    assert "but not shrink" in tank.refusal("size=32M")
    assert "only be read" in tank.refusal("size=65M", "ro=true")
    tank.create()
    with topzerad.Pool(tank.options.program, str(tank.pool)) as pool:
        pool.transact([topzerad.create(5)])
    assert "no disk" in tank.refusal("size=64M")
    tank.create()
    with topzerad.Pool(tank.options.program, str(tank.pool)) as pool:
        header = b"topzdisk" + struct.pack("<QQQ", 64 * MIB, PART, FRONT - 64)
        pool.transact([topzerad.create(0), topzerad.write(0, 0, header)])
    assert "no disk" in tank.refusal("size=64M")
    tank.pool.write_bytes(bytes(8 * MIB))
    assert "can't be opened: the device holds no pool: no label has" in tank.refusal("size=64M")
    tank.pool.unlink()
    assert "No such file" in tank.refusal("size=64M")
    return "eighteen refusals, and the size is kept"


def limits(tank):
    for words, dirty, cache in (
        ((), 4 * MIB, 4096),
        (("dirty=1M", "cache=4K"), MIB, 1),
        (("dirty=1T", "cache=1M"), 1 << 40, 256),
    ):
        process = tank.start("size=8M", *words)
        (program,) = processes_of(process.pid)
        asked = pathlib.Path(f"/proc/{program}/cmdline").read_bytes().split(b"\0")
        assert asked[asked.index(b"--dirty") + 1] == b"%d" % dirty, asked
        assert asked[asked.index(b"--cache") + 1] == b"%d" % cache, asked
        with tank.disk() as disk:
            disk.write(0, b"d" * 64 * KIB)
            disk.flush()
            assert disk.read(0, 64 * KIB) == b"d" * 64 * KIB
        tank.stop(process)
    with tank.served("size=32M", "dirty=1M"), tank.disk() as disk:
        for part in range(99):
            disk.write(part * PART, b"p" * BLOCK)
        disk.trim(BLOCK, 98 * PART)
        assert disk.read(0, 90 * PART) == b"p" * BLOCK + bytes(90 * PART - BLOCK)
    return "three dirty limits and caches, and a trim of 99 parts"


def the_greatest_disk(tank):
    end = 1_777_098_752
    with tank.served(f"size={end}"), tank.disk() as disk:
        assert disk.size == end
        disk.write(end - BLOCK, b"e" * BLOCK, fua=True)
        disk.trim(0, end - BLOCK)
    with tank.served(), tank.disk() as disk:
        assert disk.read(end - 2 * BLOCK, 2 * BLOCK) == bytes(BLOCK) + b"e" * BLOCK
        assert is_refused(errno.EINVAL, disk.read, end, 1)
    return f"{end} bytes"


def patterns(tank):
    """qemu-io"""
    with tank.served("size=64M"):
        steps = [
            "write -P 0xaa 0 64k", "write -P 0xbb 335000 10000", "write -f -P 0xcc 1M 4k", "flush",
            "read -P 0xaa 0 64k", "read -P 0xbb 335000 10000", "read -P 0xcc 1M 4k", "read -P 0 2M 64k",
            "discard 0 1M", "write -z 1M 4k", "read -P 0 1M 4k", "write -P 0x11 30M 2M", "read -P 0x11 30M 2M",
            "write -z 31M 10000", "read -P 0 31M 10000", "write -P 0x22 61M 3M", "write -z 62M 2M", "discard 62M 1M",
        ]  # fmt: skip
        run("qemu-io", "-f", "raw", tank.uri, *[word for step in steps for word in ("-c", step)])
    with tank.served():
        steps = [
            "read -P 0x11 30M 1M", "read -P 0 31M 10000", "read -P 0x11 32515856 1028336", "read -P 0 1M 4k",
            "read -P 0x22 61M 1M", "read -P 0 62M 2M",
        ]  # fmt: skip
        run("qemu-io", "-f", "raw", tank.uri, *[word for step in steps for word in ("-c", step)])
    return "patterns, discards and zeros, also after a restart"


def random_steps(tank):
    """Writes, zeros and trims of any size and place, beside a copy in memory."""
    size, chosen = 2 * MIB, random.Random(4)
    copy = bytearray(size)
    for _ in range(3):
        with tank.served("size=2M"), tank.disk() as disk:
            assert disk.read(0, size) == copy
            for _ in range(150):
                low, high = sorted(chosen.choice((chosen.randrange(size), PART * chosen.randrange(7))) for _ in "12")
                low = max(low, high - chosen.choice((500, 5_000, 70_000, 2_000_000)))
                step = chosen.choice("wwwzf") if low < high else "f"
                if step == "w":
                    copy[low:high] = chosen.randbytes(high - low)
                    disk.write(low, bytes(copy[low:high]), fua=chosen.random() < 0.1)
                elif step == "z":
                    copy[low:high] = bytes(high - low)
                    disk.zero(low, high - low, fua=chosen.random() < 0.1)
                else:
                    disk.flush()
                low, high = max(low - 50, 0), min(high + 50, size)
                assert disk.read(low, high - low) == copy[low:high]
            # A trim may leave bytes or make them zeros.
            disk.trim(100_000, 1_000_000)
            found = disk.read(0, size)
            assert all(one in (0, other) for one, other in zip(found[100_000:1_100_000], copy[100_000:1_100_000]))
            assert found[:100_000] == copy[:100_000] and found[1_100_000:] == copy[1_100_000:]
            copy[:] = found
    return "450 writes, zeros and flushes of any size"


def copies(tank):
    """nbdcopy"""
    there, back = tank.folder / "there", tank.folder / "back"
    there.write_bytes(content(40 * MIB, 1) + bytes(8 * MIB) + content(16 * MIB, 2))
    with tank.served("size=64M"):
        run("nbdcopy", "--flush", there, tank.uri)
        run("nbdcopy", tank.uri, back)
        run("cmp", there, back)
    with tank.served():
        back.unlink()
        run("nbdcopy", tank.uri, back)
        run("cmp", there, back)
    return "64 MiB there and back, also after a restart"


def fio_job(tank, *words):
    common = ["--name=job", "--ioengine=nbd", f"--uri={tank.uri}", "--verify_fatal=1", "--do_verify=1"]
    run("fio", *common, f"--aux-path={tank.folder}", *words)


def verified(tank):
    """fio"""
    with tank.served("size=64M"):
        fio_job(tank, "--rw=randwrite", "--bs=4k", "--size=16m", "--iodepth=16", "--verify=crc32c", "--fsync=64")
        fio_job(
            tank, "--rw=randrw", "--bsrange=512-64k", "--blockalign=512", "--size=16m", "--offset=32m", "--iodepth=8",
            "--verify=sha256",
        )  # fmt: skip
    return "4 KiB with fsync, and 512 bytes to 64 KiB"


def file_system(tank):
    """nbdcopy mkfs.ext4 e2fsck debugfs"""
    tree, image, back = tank.folder / "tree", tank.folder / "image", tank.folder / "back"
    for number in range(40):
        folder = tree / f"folder{number % 4}"
        folder.mkdir(parents=True, exist_ok=True)
        (folder / f"file{number}").write_bytes(content(number * 4_999, number))
    run("mkfs.ext4", "-q", "-d", tree, image, "64M")
    with tank.served("size=64M"):
        run("nbdcopy", "--flush", image, tank.uri)
    with tank.served():
        run("nbdcopy", tank.uri, back)
    run("cmp", image, back)
    run("e2fsck", "-f", "-n", back)
    run("debugfs", "-R", f"rdump / {tank.folder}", back)
    run("diff", "-r", tree, tank.folder / "tree")
    for number in range(40):
        found = (tank.folder / f"folder{number % 4}" / f"file{number}").read_bytes()
        assert found == content(number * 4_999, number)
    return "ext4 with 40 files, checked after copies and a restart"


def read_only(tank):
    with tank.served("size=64M"), tank.disk() as disk:
        disk.write(0, b"a" * BLOCK)
    with tank.served("ro=true"), tank.disk() as disk:
        assert disk.read(0, BLOCK) == b"a" * BLOCK
        assert is_refused(errno.EPERM, disk.write, 0, b"b" * BLOCK)
        assert is_refused(errno.EPERM, disk.zero, 0, BLOCK) and is_refused(errno.EPERM, disk.trim, 0, BLOCK)
    with tank.served(), tank.disk() as disk:
        assert disk.read(0, BLOCK) == b"a" * BLOCK
    return "reads are answered, the rest is refused"


def growth(tank):
    with tank.served("size=8392704"), tank.disk() as disk:
        disk.write(disk.size - BLOCK, b"a" * BLOCK)
    with tank.served("size=200M"), tank.disk() as disk:
        assert disk.size == 200 * MIB
        assert disk.read(8392704 - BLOCK, 2 * BLOCK) == b"a" * BLOCK + bytes(BLOCK)
        disk.write(200 * MIB - BLOCK, b"b" * BLOCK)
    with tank.served("size=200M"), tank.disk() as disk:
        assert disk.read(200 * MIB - BLOCK, BLOCK) == b"b" * BLOCK
    return "8 MiB to 200 MiB"


def extents(tank):
    """nbdinfo"""
    with tank.served("size=8M"), tank.disk() as disk:
        disk.write(0, b"a" * 3 * BLOCK)
        disk.write(5 * PART + BLOCK, b"b" * BLOCK)
        disk.write(7 * PART, b"c" * PART)
        disk.trim(7 * PART + 10 * BLOCK, PART)
        disk.write(24 * PART, b"d" * 3 * BLOCK)
        disk.trim(24 * PART, 8 * MIB - 24 * PART)
        rows = json.loads(run("nbdinfo", "--map", "--json", tank.uri))
    found = [(row["offset"], row["length"], row["type"]) for row in rows]
    expected = [(0, 3 * BLOCK, 0), (5 * PART, 2 * BLOCK, 0), (7 * PART, 10 * BLOCK, 0)]
    assert [row for row in found if row[2] == 0] == expected, found
    assert {row[2] for row in found} == {0, 3} and sum(row[1] for row in found) == 8 * MIB, found
    return "three pieces with bytes, and holes"


def places(tank):
    """Where the bytes of blocks are in the pool."""
    with tank.served("size=8M"), tank.disk() as disk:
        disk.write(PART + 3 * BLOCK, b"a" * FRONT + b"b" * 64 + b"c" * FRONT + b"d" * 64)
        disk.write(2 * PART + 5 * BLOCK + FRONT + 10, b"e" * 20)
        disk.write(3 * PART + 81 * BLOCK, b"f" * 2 * BLOCK, fua=True)
    with topzerad.Pool(tank.options.program, str(tank.pool)) as pool:
        assert pool.read(0) == b"topzdisk" + struct.pack("<QQQ", 8 * MIB, PART, FRONT)
        part = pool.read(2)
        assert part[: 64 * 5] == bytes(64 * 3) + b"b" * 64 + b"d" * 64
        assert part[64 * 5 :] == bytes(FRONTS + 3 * FRONT - 64 * 5) + b"a" * FRONT + b"c" * FRONT
        assert pool.read(3) == bytes(64 * 5 + 10) + b"e" * 20
        part = pool.read(4)
        assert len(part) == FRONTS + 82 * FRONT and part[-FRONT:] == b"f" * FRONT and part[64 * 81 : 64 * 82] == b"f" * 64
        assert pool.read(5) == b"f" * 64 + bytes(FRONTS - 64) + b"f" * FRONT
    with tank.served(), tank.disk() as disk:
        rows = json.loads(run("nbdinfo", "--map", "--json", tank.uri)) if shutil.which("nbdinfo") else None
        disk.trim(2 * PART + 5 * BLOCK, PART - 5 * BLOCK)
        disk.zero(PART + 3 * BLOCK + FRONT + 1, PART)
        assert disk.read(PART + 3 * BLOCK, 3 * BLOCK) == b"a" * FRONT + b"b" + bytes(2 * BLOCK + 63)
        assert disk.read(2 * PART, PART) == bytes(PART)
    if rows:
        found = [(row["offset"], row["length"]) for row in rows if row["type"] == 0]
        assert found == [(PART, 5 * BLOCK), (2 * PART, 6 * BLOCK), (3 * PART, PART + BLOCK)], found
    return "fronts, tails and the header"


def older_disk(tank):
    """A disk whose header has no size of fronts: its blocks are whole."""
    with topzerad.Pool(tank.options.program, str(tank.pool)) as pool:
        header = b"topzdisk" + struct.pack("<QQ", 2 * PART, PART)
        pool.transact([topzerad.create(number) for number in range(3)] + [topzerad.write(0, 0, header)])
        pool.transact([topzerad.write(1, 5_000, content(20_000, 1)), topzerad.write(2, PART - 9, b"nine ends")])
    copy = bytearray(2 * PART)
    copy[5_000:25_000], copy[-9:] = content(20_000, 1), b"nine ends"
    with tank.served(), tank.disk() as disk:
        assert disk.read(0, 2 * PART) == copy
        copy[8_000:78_000] = content(70_000, 2)
        disk.write(8_000, bytes(copy[8_000:78_000]))
        copy[PART - 20_000 : PART] = bytes(20_000)
        disk.trim(PART - 20_000, 20_000)
        copy[30_000:31_000] = bytes(1_000)
        disk.zero(30_000, 1_000)
        assert disk.read(0, 2 * PART) == copy
    with tank.served(f"size={3 * PART}"), tank.disk() as disk:
        assert disk.read(0, 3 * PART) == copy + bytes(PART)
    with topzerad.Pool(tank.options.program, str(tank.pool)) as pool:
        assert pool.read(0) == b"topzdisk" + struct.pack("<QQ", 3 * PART, PART)
        assert pool.read(1).ljust(PART, b"\0") == copy[:PART] and pool.read(2) == copy[PART:]
    return "it is read, written, trimmed and grows as before"


def whole_blocks(tank):
    """Threads write one block each way while others read it."""
    faults, end = [], time.monotonic() + 2

    def write(letter):
        with tank.disk() as disk:
            while time.monotonic() < end:
                disk.write(PART - BLOCK, letter * 2 * BLOCK)

    def read():
        with tank.disk() as disk:
            while time.monotonic() < end:
                found = disk.read(PART - BLOCK, 2 * BLOCK)
                faults.extend(part for part in (found[:BLOCK], found[BLOCK:]) if len(set(part)) != 1)

    with tank.served("size=8M"):
        threads = [threading.Thread(target=write, args=(letter,)) for letter in (b"a", b"b", b"c")]
        threads += [threading.Thread(target=read) for _ in range(2)]
        for thread in threads:
            thread.start()
        for thread in threads:
            thread.join()
    assert not faults
    return "three writers and two readers of the same blocks"


def transactions(tank):
    """What is written in each transaction: the stand-in's file has them as log records."""
    if tank.options.program != STAND_IN:
        return None
    with tank.served("size=8M"), tank.disk() as disk:
        for offset in (0, BLOCK, PART - BLOCK, PART - 10 * BLOCK):
            for blocks in (1, 15, 16, 300):
                disk.write(offset, b"a" * blocks * BLOCK)
        disk.zero(BLOCK, 20 * BLOCK)
        disk.write(BLOCK + 1, b"a" * 100_000)
    records = read_records(tank.pool.read_bytes())
    writes = [[op[2:] for op in record.ops if op[0] == "w" and op[1]] for record in records]
    ranges = [(place, place + len(content)) for some in writes for place, content in some]
    fronts = {((low - FRONTS) % FRONT, (high - FRONTS) % FRONT) for low, high in ranges if low >= FRONTS}
    tails = {(low % (BLOCK - FRONT), high % (BLOCK - FRONT)) for low, high in ranges if low < FRONTS}
    assert fronts == {(0, 0), (1, 0), (0, 100_001 % BLOCK)} and tails == {(0, 0)}, (fronts, tails)
    sizes = [sum(len(content) for _, content in some) for some in writes if some]
    assert sizes[:4] == [BLOCK, 15 * BLOCK, 15 * BLOCK, BLOCK] and max(sizes) <= 65_446, sizes
    return f"{len(sizes)} of them, each to the end of a block"


def full_pool(tank):
    """A disk that is larger than its pool."""
    if tank.options.program == STAND_IN:
        return None
    tank.create(16 * MIB)
    with tank.served("size=64M"), tank.disk() as disk:
        written = 0
        while not is_refused(errno.ENOSPC, disk.write, written, content(64 * KIB, written)):
            written += 64 * KIB
            assert written < disk.size
        disk.flush()
        assert disk.read(0, 64 * KIB) == content(64 * KIB, 0)
        disk.trim(PART + 2 * BLOCK, 2 * BLOCK)
        disk.trim(PART + 2 * BLOCK, 4 * MIB)
        disk.write(0, b"a" * MIB, fua=True)
    with tank.served(), tank.disk() as disk:
        assert disk.read(0, MIB) == b"a" * MIB
        assert disk.read(written - 64 * KIB, 64 * KIB) == content(64 * KIB, written - 64 * KIB)
    return f"no space after {written} bytes, and space again after a trim"


def refusing_program(tank, library, kind, at):
    """A program as the one that is tested, but the device refuses the call of this kind with this number."""
    path = tank.folder / "refusing"
    variables = f"LD_PRELOAD={library} FAIL_KIND={kind} FAIL_AT={at}"
    path.write_text(f'#!/bin/sh\n{variables} exec {tank.options.program} "$@"\n')
    path.chmod(0o700)
    return path


def compare(tank, ledger, what):
    """Compares the disk with what was acknowledged, by a program that is started anew."""
    with tank.served(), tank.disk() as disk:
        lost, torn = ledger.compare(disk)
    assert not lost and not torn, f"{what}: {lost} blocks are lost, {torn} are torn"


def refused_device(tank):
    """cc"""
    if tank.options.program == STAND_IN:
        return None
    ledger, refused = kills.Ledger(), 0
    with tank.served("size=32M"):
        pass
    with compiled("refusals") as shim:
        for moment, (kind, at) in enumerate((kind, at) for kind in ("write", "flush") for at in (15, 40, 150)):
            process = tank.start(f"program={refusing_program(tank, shim.library, kind, at)}")
            writers = kills.start_writers(tank.socket, ledger, moment)
            for writer in writers:
                writer.join(timeout=20)
            with tank.disk() as disk:
                refused += is_refused(errno.EIO, disk.flush)
            process.terminate()
            process.wait(timeout=60)
            for writer in writers:
                writer.join()
            compare(tank, ledger, f"{kind} {at}")
    assert refused == 6, refused
    return f"{refused} refused calls, {ledger.acknowledged} acknowledged blocks are there and whole"


def wait(ledger, seconds, blocks):
    """Waits for so many seconds, or until so many blocks were acknowledged, if that is earlier."""
    end = time.monotonic() + seconds
    while time.monotonic() < end and ledger.acknowledged < blocks:
        time.sleep(0.005)


def kill_at_moments(tank, kills_program, writers_count=4, longest=0.7, most_blocks=math.inf):
    """Kills what serves the disk at one moment after the other, without end: the program where `kills_program` says so
    of the moment's number, and else nbdkit. A moment comes by chance before `longest` seconds and `most_blocks` that
    were acknowledged. After each it yields how many were, and how many of the disk are lost and torn then. Each tenth
    moment has a new pool, since the stand-in's file keeps all transactions."""
    moments = random.Random(9)
    for moment in itertools.count():
        if moment % MOMENTS_OF_POOL == 0:
            tank.create()
            ledger = kills.Ledger()
        process = tank.start("size=32M")
        writers = kills.start_writers(tank.socket, ledger, moment, writers_count)
        wait(ledger, moments.uniform(0.02, longest), moments.random() * most_blocks)
        if kills_program(moment):
            (program,) = processes_of(process.pid)
            os.kill(program, signal.SIGKILL)
        else:
            process.kill()
        for writer in writers:
            writer.join()
            if writer.fault:
                raise writer.fault
        process.terminate()
        process.wait(timeout=60)
        acknowledged, ledger.acknowledged = ledger.acknowledged, 0
        with tank.served(), tank.disk() as disk:
            yield acknowledged, *ledger.compare(disk)


def kill_and_compare(tank, kills_program):
    """Kills nbdkit or the program at each moment, and compares the disk with what was acknowledged."""
    acknowledged = 0
    found = itertools.islice(kill_at_moments(tank, lambda _: kills_program), tank.options.kills)
    for moment, (blocks, lost, torn) in enumerate(found):
        assert not lost and not torn, f"moment {moment}: {lost} blocks are lost, {torn} are torn"
        acknowledged += blocks
    return f"{tank.options.kills} moments, {acknowledged} acknowledged blocks are there and whole"


def kills_until_sectors(tank):
    """Kills nbdkit twice and then the program twice, again and again, until as many sectors were acknowledged as
    `--sectors` says. Of both moments one has writes with FUA."""
    sectors = lost = torn = 0
    moments = kill_at_moments(tank, lambda moment: moment // 2 % 2, writers_count=16, longest=2, most_blocks=3000)
    for number, found in enumerate(moments, 1):
        sectors += found[0] * BLOCK // SECTOR
        lost, torn = lost + found[1], torn + found[2]
        rounds = (number - 1) // MOMENTS_OF_POOL + 1
        said = f"rounds {rounds}, kills {number}, acknowledged sectors {sectors}, lost blocks {lost}, torn blocks {torn}"
        if number % MOMENTS_OF_POOL == 0:
            print(said, flush=True)
        if sectors >= tank.options.sectors:
            break
    assert not lost and not torn, said
    return said


def killed_nbdkit(tank):
    return kill_and_compare(tank, False)


def killed_program(tank):
    return kill_and_compare(tank, True)


TESTS = (
    options, limits, the_greatest_disk, patterns, random_steps, copies, verified, file_system, read_only, growth,
    extents, places, older_disk, transactions, whole_blocks, full_pool, refused_device, killed_nbdkit, killed_program,
)  # fmt: skip


def lacking(test):
    """The commands that a test needs and that are not there."""
    words = ["nbdkit"] + (test.__doc__ or "").split()
    names = {"nbdkit", "cc", "qemu-io", "nbdcopy", "nbdinfo", "fio", "mkfs.ext4", "e2fsck", "debugfs"}
    return [word for word in words if word in names and not shutil.which(word)]


def check(test, chosen):
    """Runs a test in a folder of its own, prints a line, and returns whether it passed, or None if it was skipped."""
    name, missing = test.__name__, lacking(test)
    if missing:
        print(f"skipped {name}: {' '.join(missing)} not installed", flush=True)
        return None
    begin = time.monotonic()
    with tempfile.TemporaryDirectory(dir=chosen.folder) as folder:
        tank = Tank(chosen, pathlib.Path(folder))
        try:
            tank.create()
            said = test(tank)
        except Exception as fault:
            log = tank.log.read_text(errors="replace")[-2000:] if tank.log.exists() else ""
            print(f"FAILED {name}: {type(fault).__name__} {fault}\n{log}", flush=True)
            return False
    if said is None:
        print(f"skipped {name}: not with this program", flush=True)
        return None
    print(f"passed {name}: {said} ({time.monotonic() - begin:.1f} s)", flush=True)
    return True


def main():
    parser = argparse.ArgumentParser(description=__doc__.splitlines()[0])
    parser.add_argument("--program", default=STAND_IN)
    parser.add_argument("--plugin", default=str(HERE / "out" / "topzerad-plugin.so"))
    parser.add_argument("--kills", type=int, default=20)
    parser.add_argument("--sectors", type=int, nargs="?", const=1_000_000, metavar="N")
    parser.add_argument("--folder", help="where the files of the tests go")
    parser.add_argument("--install", action="store_true")
    parser.add_argument("tests", nargs="*", choices=[[], *(test.__name__ for test in TESTS)])
    chosen = parser.parse_args()
    chosen.program = os.path.realpath(shutil.which(chosen.program) or chosen.program)
    if chosen.install:
        subprocess.run(["apt-get", "install", "-y", "--no-install-recommends", *PACKAGES], check=True)
    tests = [test for test in TESTS if not chosen.tests or test.__name__ in chosen.tests]
    if chosen.sectors is not None:
        tests = [kills_until_sectors]
    outcomes = [check(test, chosen) for test in tests]
    print(f"{outcomes.count(True)} passed, {outcomes.count(False)} failed")
    return 1 if False in outcomes else 0


if __name__ == "__main__":
    sys.exit(main())
