"""Counts how often the threads of a pool that rests are woken, with both loops.

After a second the voluntary context switches of each thread of IDLE_LOOPS are counted for five seconds, by /proc: a
thread that is woken sleeps again. It prints the wakes a second of each thread, and of all.
"""

import pathlib
import subprocess
import time

from tools import Failed
from tools.harness.program import add_program, status_of

SECONDS = 5


def switches(process):
    """The voluntary context switches of each thread so far."""
    threads = [path.name for path in pathlib.Path(f"/proc/{process}/task").iterdir()]
    return {thread: int(status_of(process, thread)["voluntary_ctxt_switches"]) for thread in threads}


def add_arguments(parser):
    add_program(parser, "idle_loops")


def main(idle_loops):
    with subprocess.Popen([idle_loops, str(SECONDS + 2)]) as process:
        time.sleep(1)
        before = switches(process.pid)
        time.sleep(SECONDS)
        after = switches(process.pid)
    if process.returncode != 0:
        raise Failed(f"{idle_loops} ended with {process.returncode}")
    rates = {thread: (after[thread] - before.get(thread, 0)) / SECONDS for thread in after}
    for thread, rate in sorted(rates.items()):
        print(f"thread {thread}: {rate:.1f} wakes a second")
    print(f"all: {sum(rates.values()):.1f} wakes a second")
