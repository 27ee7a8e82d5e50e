#!/usr/bin/env python3
"""Measures the disk by fio: `speed.py [--rounds N] [ZTXG]`. Beside it are a plain file by nbdkit and a qcow2 image by
qemu-nbd.

Each round makes new disks. It runs each job on each of them, one after the other, since what a flush costs changes from
minute to minute; the next round begins with the next disk. Each job and disk has a row: requests a second, or MB a
second for the sequential jobs, the middle of the rounds with the least and the most. Then it has the ratio of the pool
to that disk in the same round: above 1 the pool is faster."""

import argparse
import contextlib
import json
import os
import pathlib
import shutil
import statistics
import subprocess
import sys
import tempfile
import time

HERE = pathlib.Path(__file__).resolve().parent
SIZE = 256 << 20
# Each job: its name, what fio is asked, which half of its answer counts, and whether it counts bytes.
JOBS = (
    ("write 64 KiB in order, depth 8", "--rw=write --bs=64k --iodepth=8 --end_fsync=1", "write", True),
    ("random 4 KiB, fsync each", "--rw=randwrite --bs=4k --iodepth=1 --fsync=1", "write", False),
    ("random 4 KiB, fsync each 8th, depth 16", "--rw=randwrite --bs=4k --iodepth=16 --fsync=8", "write", False),
    ("random read 4 KiB, depth 16", "--rw=randread --bs=4k --iodepth=16", "read", False),
    ("read 64 KiB in order, depth 8", "--rw=read --bs=64k --iodepth=8", "read", True),
)
OURS = "topzerad"
DISKS = (OURS, "nbdkit file", "qcow2")


def socket_of(disk, folder):
    return folder / f"{DISKS.index(disk)}.socket"


def start(disk, folder, chosen):
    """Starts the server of a new disk."""
    socket = socket_of(disk, folder)
    socket.unlink(missing_ok=True)
    if disk == "qcow2":
        image = folder / "disk.qcow2"
        subprocess.run(["qemu-img", "create", "-q", "-f", "qcow2", image, str(SIZE)], check=True)
        return subprocess.Popen(["qemu-nbd", "-t", "-f", "qcow2", "-k", socket, image])
    if disk == "nbdkit file":
        (folder / "disk.raw").write_bytes(b"")
        with open(folder / "disk.raw", "r+b") as file:
            file.truncate(SIZE)
        return subprocess.Popen(["nbdkit", "-f", "-U", socket, "file", folder / "disk.raw"])
    pool = folder / "tank.pool"
    pool.unlink(missing_ok=True)
    subprocess.run([chosen.program, "create", pool, "tank", "77", str(1 << 30)], check=True, stdout=subprocess.DEVNULL)
    options = [f"file={pool}", f"size={SIZE}", f"program={chosen.program}"]
    return subprocess.Popen(["nbdkit", "-f", "-U", socket, chosen.plugin, *options])


@contextlib.contextmanager
def served(disk, folder, chosen):
    """Serves a new disk."""
    server = start(disk, folder, chosen)
    try:
        wait_for(socket_of(disk, folder))
        yield
    finally:
        server.terminate()
        server.wait()


def measure(job, disk, folder, seconds):
    """Runs a job on a disk that is served, once what was written before is on the machine's disk."""
    _, words, half, in_bytes = job
    os.sync()
    uri = f"nbd+unix:///?socket={socket_of(disk, folder)}"
    common = ["fio", "--name=job", "--ioengine=nbd", f"--uri={uri}", f"--aux-path={folder}", "--size=200m"]
    common += ["--time_based", f"--runtime={seconds}", "--output-format=json", f"--output={folder / 'answer'}"]
    subprocess.run(common + words.split(), check=True)
    text = (folder / "answer").read_text()
    answer = json.loads(text[text.index("{") :])["jobs"][0]
    if answer["error"]:
        raise RuntimeError(f"fio: error {answer['error']}")
    return answer[half]["bw_bytes"] / 1e6 if in_bytes else answer[half]["iops"]


def wait_for(socket):
    end = time.monotonic() + 60
    uri = f"nbd+unix:///?socket={socket}"
    while subprocess.run(["nbdinfo", "--size", uri], capture_output=True).returncode:
        if time.monotonic() > end:
            raise RuntimeError("the server did not start")
        time.sleep(0.05)


def middle(numbers, form):
    """The middle of some numbers, with the least and the most."""
    low, high = min(numbers), max(numbers)
    return f"{statistics.median(numbers):{form}} ({low:{form}}-{high:{form}})"


def rows(disks, found):
    """For each job and disk what it reached, and the ratio of the pool to it."""
    for name, _, _, in_bytes in JOBS:
        for disk in disks:
            row = f"{name:40}{disk:13}{middle(found[name, disk], ',.0f'):>26} {'MB/s' if in_bytes else 'a second':10}"
            if disk != OURS:
                ratios = [ours / theirs for ours, theirs in zip(found[name, OURS], found[name, disk])]
                row += f"{middle(ratios, '.2f'):>20}"
            yield row.rstrip()


def main():
    parser = argparse.ArgumentParser(description=__doc__.splitlines()[0])
    parser.add_argument("program", nargs="?", default="ztxg")
    parser.add_argument("--plugin", default=str(HERE / "out" / "topzerad-plugin.so"))
    parser.add_argument("--rounds", type=int, default=3)
    parser.add_argument("--seconds", type=int, default=5)
    parser.add_argument("--folder", help="where the disks go")
    chosen = parser.parse_args()
    chosen.program = shutil.which(chosen.program) or sys.exit(f"there is no program {chosen.program}")
    disks = [disk for disk in DISKS if disk != "qcow2" or shutil.which("qemu-nbd")]
    found = {(job[0], disk): [] for job in JOBS for disk in disks}
    with tempfile.TemporaryDirectory(dir=chosen.folder) as folder:
        folder = pathlib.Path(folder)
        for number in range(chosen.rounds):
            first = number % len(disks)
            with contextlib.ExitStack() as servers:
                for disk in disks:
                    servers.enter_context(served(disk, folder, chosen))
                for job in JOBS:
                    for disk in disks[first:] + disks[:first]:
                        found[job[0], disk].append(measure(job, disk, folder, chosen.seconds))
                        print(f"round {number + 1}: {job[0]}, {disk}: {found[job[0], disk][-1]:,.0f}", file=sys.stderr)
    print(f"{chosen.rounds} rounds of {chosen.seconds} seconds: the middle (least-most), and the pool's ratio to it")
    for row in rows(disks, found):
        print(row)


if __name__ == "__main__":
    main()
