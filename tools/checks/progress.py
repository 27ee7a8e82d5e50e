"""Runs commands on slow files, and judges what a terminal shows of their progress.

`cc` compiles a `pread64`, a `pwrite64` and an `fsync` that wait before each call (`tools/harness/shims/delays.c`).

- `create`, also over a pool, `check`, `get`, `put`, `rm` and `copy`: in the first second standard error has nothing. Then
  it has how many bytes were read and written, and how many in a second, at most four times a second. They only grow.
- At the end a terminal shows what the same command prints on a quick file, and nothing else. So it does if the command
  is refused, or prints to the same terminal.
- With `-q`, or if standard error is no terminal, there is no progress.

Each difference is printed, and then the status is 1.
"""

import concurrent.futures
import os
import pathlib
import pty
import re
import shutil
import subprocess
import tempfile
import time
from typing import List, NamedTuple

from tools import TOP
from tools.harness import shims
from tools.harness.judge import Judge
from tools.harness.pool_files import SIZE, create
from tools.harness.program import add_program, run, terminal_text
from tools.harness.terminal import screen

SECONDS = 60
# So many milliseconds each call of a slow file takes longer. A command makes ten of them at least, and a create 900.
DELAY, DELAY_OF_CREATE = 200, 3
FIRST, EACH = 1, 0.25
MADE = "made.pool"
TEXT = b"hello\nthere\n"
DONE = re.compile(rb"(\d+) bytes done, (\d+) bytes in a second")


class Case(NamedTuple):
    """A command on a file of its own, with or without a pool. Its output may go to the terminal too."""

    title: str
    words: List[str]
    is_new: bool = False
    has_output: bool = False
    delay: int = DELAY

    @property
    def file(self):
        return f"{self.title.replace(' ', '_')}.pool"

    @property
    def command(self):
        files = {"FILE": self.file, "NEW": self.new}
        return [files.get(word, word) for word in self.words]

    @property
    def new(self):
        """The file that a copy makes."""
        return f"{self.file}.new"


CREATE = ["create", "FILE", "tank", "77", str(SIZE)]
CASES = [
    Case("a create", CREATE, is_new=True, delay=DELAY_OF_CREATE),
    Case("a create over a pool", CREATE, delay=DELAY_OF_CREATE),
    Case("a check", ["check", "FILE"]),
    Case("a get", ["get", "FILE", "1"]),
    Case("a get to the terminal", ["get", "FILE", "1"], has_output=True),
    Case("a refused get", ["get", "FILE", "9"]),
    Case("a put", ["put", "FILE", "2"]),
    Case("a put by name", ["put", "FILE", "@two"]),
    Case("a removal", ["rm", "FILE", "1"]),
    Case("a copy", ["copy", "FILE", "NEW"], delay=DELAY_OF_CREATE),
]
QUIET = Case("a quiet check", ["-q", "check", "FILE"])
LOGGED = Case("a check without a terminal", ["check", "FILE"])


class Shown(NamedTuple):
    """A run: its status, what it printed, what the terminal got, after how many seconds its progress, and how many the
    run took."""

    status: int
    out: bytes
    text: bytes
    first: float
    seconds: float


class Progress(Judge):
    """Runs on files in the current folder."""

    def __init__(self, ztxg, shim):
        super().__init__("progress")
        self.ztxg, self.shim, self.runs = ztxg, shim, 0

    def environment(self, case):
        return self.shim.environment(DELAY=str(case.delay))

    def make(self):
        create(self.ztxg, MADE)
        subprocess.run([self.ztxg, "put", MADE, "1"], input=TEXT, stdout=subprocess.DEVNULL, check=True)

    def prepare(self, case):
        for file in (case.file, case.new):
            pathlib.Path(file).unlink(missing_ok=True)
        if not case.is_new:
            shutil.copy(MADE, case.file)

    def quick(self, case):
        """What a command prints on a quick file and no terminal."""
        self.runs += 1
        self.prepare(case)
        return run([self.ztxg, *case.command], ["hello"], SECONDS)

    def slow(self, case):
        """A run on a slow file and a terminal."""
        self.runs += 1
        self.prepare(case)
        main, other = pty.openpty()
        parts, first, begun = [], None, time.monotonic()
        streams = {"stdout": other if case.has_output else subprocess.PIPE, "stderr": other}
        words = [self.ztxg, *case.command]
        with subprocess.Popen(words, stdin=subprocess.PIPE, env=self.environment(case), **streams) as running:
            os.close(other)
            running.stdin.write(b"hello\n")
            running.stdin.close()
            for part in terminal_text(main):
                if first is None and DONE.search(part):
                    first = time.monotonic() - begun
                parts.append(part)
            out = b"" if case.has_output else running.stdout.read()
        os.close(main)
        return Shown(running.returncode, out, b"".join(parts), first, time.monotonic() - begun)

    def judge_end(self, case, wanted, shown):
        """The end has to be that of the same command on a quick file."""
        out = b"" if case.has_output else wanted.out
        if (shown.status, shown.out) != (wanted.status, out):
            self.differ(case.title, "ends with", shown, "and not with", wanted)
        on_terminal = wanted.errors + (wanted.out if case.has_output else b"")
        if screen(shown.text) != (lines := on_terminal.decode().split("\n")):
            self.differ(case.title, "leaves", screen(shown.text), "on a terminal, and not", lines)

    def judge_progress(self, case, shown):
        """What was shown before."""
        done = [int(count) for count, _ in DONE.findall(shown.text)]
        if not done or 0 in done:
            self.differ(case.title, "shows", shown.text)
            return
        if done != sorted(done):
            self.differ(case.title, "shows fewer bytes than before:", done)
        if shown.first < FIRST:
            self.differ(case.title, "shows its progress after", shown.first, "seconds")
        if len(done) > (shown.seconds - FIRST) / EACH + 1:
            self.differ(case.title, "shows its progress", len(done), "times in", shown.seconds, "seconds")

    def judge_cases(self):
        wanted = [self.quick(case) for case in CASES]
        with concurrent.futures.ThreadPoolExecutor(len(CASES)) as side_by_side:
            shown = list(side_by_side.map(self.slow, CASES))
        for case, end, run_shown in zip(CASES, wanted, shown):
            self.judge_end(case, end, run_shown)
            self.judge_progress(case, run_shown)

    def judge_silence(self):
        wanted, shown = self.quick(QUIET), self.slow(QUIET)
        self.judge_end(QUIET, wanted, shown)
        if shown.text:
            self.differ(QUIET.title, "shows", shown.text)
        wanted = self.quick(LOGGED)
        found = run([self.ztxg, *LOGGED.command], ["hello"], SECONDS, env=self.environment(LOGGED))
        if found != wanted:
            self.differ(LOGGED.title, "ends with", found, "and not with", wanted)


def add_arguments(parser):
    add_program(parser)


def main(ztxg):
    with shims.compiled("delays") as shim, tempfile.TemporaryDirectory() as folder:
        judge = Progress(ztxg, shim)
        os.chdir(folder)
        judge.make()
        judge.judge_cases()
        judge.judge_silence()
        os.chdir(TOP)
    print(f"{judge.runs} runs, {judge.differences} differences")
    return int(judge.differences > 0)
