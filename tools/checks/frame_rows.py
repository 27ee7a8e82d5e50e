"""Asks served pools worked frames, and compares each answer with what `docs/FRAMES.md` says of it.

The frames are those of `tools/rows/frame_rows.py`.

- What a process writes before it reads a frame: of a pool that is open, and if its file can't be used, has no pool or a
  damaged one, or a limit is out of range. Such a process ends, though its input doesn't, with the status and the text
  of every command, and leaves the file as it is.
- The bytes of some frames and of their answers, whole and cut off at some places, and records with a field wrong.
- What was committed is read, listed and named. A refused transaction leaves no lock. At a limit, or in a pool, that has
  room for some transactions at once, all are committed. A full pool is synced before it refuses.
- Commits are durable by the log before their group is synced, also if the process is killed then. If the log has no
  block for them, they are durable by a sync.
- The two threads beside the frames sync groups that nobody waits for.

Those threads close a group within some 25 milliseconds of its first commit. So a row in which a group has to be open
still may fail for them: it has to hold in one of some tries. Each difference is printed, and then the status is 1.
"""

import os
import pathlib
import shutil
import subprocess
import time

from tools.harness.judge import Judge
from tools.harness.pool_files import IN_MEMORY, SIZE, create, pool_file
from tools.harness.program import Ran, add_program, run
from tools.harness.served import Served
from tools.model.frames import Request, Server, opened_frame, read_answers, refused_frame, requests_frame
from tools.model.layout import BLOCK, MIB
from tools.model.serial_pool import LEAST
from tools.rows import frame_rows
from tools.rows.frame_rows import is_wanted

SECONDS = 60
TRIES = 40
CUT_OFF = b"ztxg: the input ended within a frame\n"
NOBODY = {"user": 65_534, "group": 65_534, "extra_groups": []}


def run_on_nothing(words, **process):
    """A run whose input has no byte and no end."""
    reading, writing = os.pipe()
    try:
        ran = subprocess.run(words, stdin=reading, capture_output=True, timeout=SECONDS, **process)
    finally:
        os.close(reading)
        os.close(writing)
    return Ran(ran.returncode, ran.stdout, ran.stderr)


def answers_to(served, asked):
    """The answers to a frame of these requests, which are numbered from 1 on, or the number of its refusal."""
    requests = [Request(number, call, needs) for number, (call, needs, _) in enumerate(asked, 1)]
    served.send(requests_frame(requests))
    return read_answers(served.answer())


def difference(asked, given):
    """The first answer that isn't the wanted one, or None."""
    if isinstance(given, int) or len(given) != len(asked):
        return f"a frame is answered {given}"
    for number, ((call, needs, wanted), answer) in enumerate(zip(asked, given), 1):
        if answer.number != number or not is_wanted(wanted, answer):
            return f"{call} {needs} is answered {answer} and not {wanted}"
    return None


class FrameRows(Judge):
    """Served pools, each in a new file."""

    def __init__(self, ztxg):
        super().__init__("frame_rows")
        self.ztxg, self.requests = ztxg, 0

    def ask(self, served, asked):
        """How the answers to a frame differ, or None."""
        self.requests += len(asked)
        return difference(asked, answers_to(served, asked))

    def ask_new(self, frames, options=(), size=SIZE):
        """How the answers to frames on a new pool differ, or None. The frames after a difference aren't asked."""
        with pool_file(IN_MEMORY) as file:
            create(self.ztxg, file, size)
            served = Served(self.ztxg, file, *options)
            found = next(filter(None, (self.ask(served, asked) for asked in frames)), None)
            served.end()
        return found

    def judge(self, title, found):
        if found:
            self.differ(f"{title}: {found}")

    def judge_soon(self, title, try_once):
        """It may differ in nothing in one of so many tries."""
        for _ in range(TRIES):
            found = try_once()
            if found is None:
                return
        self.judge(title, found)

    def judge_rows(self):
        for title, *row in frame_rows.ROWS:
            self.judge(title, self.ask_new(*row))
        for title, *row in frame_rows.SOON:
            self.judge_soon(title, lambda: self.ask_new(*row))
        for title, count, step, *row in frame_rows.COUNTED:
            frames = ([frame_rows.counted(at) for at in range(first, first + step)] for first in range(0, count, step))
            self.judge(title, self.ask_new(frames, *row))

    # Openings

    def judge_unopened(self, wanted, file, *options, ztxg=None, **process):
        """How a process has to end that doesn't open the pool in a file."""
        words = ["serve", "-v", file, *options]
        ran = run_on_nothing([ztxg or self.ztxg, *words], **process)
        if not frame_rows.is_unopened(wanted, file, ran):
            self.differ(words, "ends with", ran, "and not with", wanted)

    def judge_unusable(self):
        """Files that can't be used. For root the last one is asked for as nobody does."""
        with pool_file() as file:
            folder = os.path.dirname(file)
            self.judge_unopened(frame_rows.MISSING, file)
            self.judge_unopened(frame_rows.NOT_REGULAR, folder)
            if os.listdir(folder):
                self.differ("a process that serves no file makes one")
            create(self.ztxg, file)
            served = Served(self.ztxg, file)
            self.judge_unopened(frame_rows.IN_USE, file)
            self.judge("a pool that another process asked for", self.ask(served, [("name", (), frame_rows.TANK)]))
            served.end()
            os.chmod(file, 0)
            if os.geteuid():
                self.judge_unopened(frame_rows.DENIED, file)
            else:
                os.chmod(folder, 0o755)
                copy = shutil.copy(self.ztxg, folder)
                self.judge_unopened(frame_rows.DENIED, file, ztxg=copy, **NOBODY)

    def judge_refused(self):
        """Files without a pool and with a damaged one, limits out of range, and words that are none."""
        with pool_file(IN_MEMORY) as file:
            for count, wanted in frame_rows.ZEROS:
                pathlib.Path(file).write_bytes(bytes(count))
                self.judge_unopened(wanted, file)
            create(self.ztxg, file)
            served = Served(self.ztxg, file)
            self.judge("the first object", self.ask(served, frame_rows.FIRST))
            served.end()
            made = pathlib.Path(file).read_bytes()
            for options in frame_rows.BAD_LIMITS:
                self.judge_unopened(frame_rows.refusal(11), file, *options)
            ran = run_on_nothing([self.ztxg, "serve", file, "--dirty", "x"])
            if (ran.status, ran.out) != (2, b"") or not ran.errors:
                self.differ("a limit that is no number ends with", ran)
            if pathlib.Path(file).read_bytes() != made:
                self.differ("a limit that is refused changes the file")
            damaged = bytearray(made)
            damaged[frame_rows.FIRST_DATA + BLOCK - 1] ^= 1
            pathlib.Path(file).write_bytes(damaged)
            self.judge_unopened(frame_rows.DAMAGED, file)
            if pathlib.Path(file).read_bytes() != damaged:
                self.differ("a damaged pool that isn't opened changes")

    # Frames

    def judge_stream(self):
        """Each front of a stream of frames has its status and its answers behind the opening, byte by byte."""
        server, opening = Server(), opened_frame(frame_rows.NEW)
        answers = b"".join(server.answer(content) for content in frame_rows.STREAM)
        stream = b"".join(frame_rows.STREAM)
        for count, status, answered in frame_rows.STREAM_ROWS:
            with pool_file(IN_MEMORY) as file:
                create(self.ztxg, file, LEAST)
                words = [self.ztxg, "serve", file]
                ran = subprocess.run(words, input=stream[:count], capture_output=True, timeout=SECONDS)
            found = ran.returncode, ran.stdout, ran.stderr
            if found != (status, opening + answers[:answered], CUT_OFF if status else b""):
                self.differ(f"{count} bytes of a stream end with {found}")

    def judge_records(self):
        """Frames of one transaction each, whose bytes are a record or none."""
        with pool_file(IN_MEMORY) as file:
            create(self.ztxg, file)
            served = Served(self.ztxg, file)
            for content, wanted in frame_rows.RECORDS:
                served.send(frame_rows.transaction(content))
                given = served.answer()
                if isinstance(wanted, int):
                    is_right = given == refused_frame(wanted)
                else:
                    answers = read_answers(given)
                    is_right = isinstance(answers, list) and [is_wanted(wanted, one) for one in answers] == [True]
                if not is_right:
                    self.differ(f"the record {content[:50].hex()} is answered {given.hex()} and not {wanted}")
            served.end()

    def judge_full(self):
        """Objects are made until there is no space for one more."""
        with pool_file(IN_MEMORY) as file:
            create(self.ztxg, file, LEAST)
            served = Served(self.ztxg, file, *frame_rows.limit(16 * MIB))
            given = answers_to(served, frame_rows.filled(0))
            served.end()
        count = sum(answer.came == 1 for answer in given)
        self.judge("a full pool", difference(frame_rows.filled(count), given))
        if not count:
            self.differ("a full pool: it has room for no object")

    def replayed(self):
        """How what a killed process leaves to the next one differs, or None."""
        with pool_file(IN_MEMORY) as file:
            create(self.ztxg, file)
            served = Served(self.ztxg, file)
            found = self.ask(served, frame_rows.REPLAYED)
            served.kill()
            shown = run([self.ztxg, "show", file], seconds=SECONDS)
            served = Served(self.ztxg, file)
            found = found or self.ask(served, frame_rows.MOUNTED)
            served.end()
        if shown.lines() != frame_rows.SHOWN:
            found = found or f"show prints {shown}"
        return found or (None if served.opening == frame_rows.REOPENED else f"it is opened as {served.opening}")

    def judge_loops(self):
        """Two commits, the second one once the group of the first is synced. Nobody waits for either."""
        with pool_file(IN_MEMORY) as file:
            create(self.ztxg, file)
            served = Served(self.ztxg, file)
            for at, group in enumerate((9, 10)):
                asked = [("transact", frame_rows.create(at), frame_rows.committed(at, group))]
                self.judge("a commit beside the threads", self.ask(served, asked) or self.unsynced(served, group))
            served.end()

    def unsynced(self, served, group):
        """Waits until a group is synced. How the status differs if it isn't in time, or None."""
        ends = time.monotonic() + SECONDS
        while (found := self.ask(served, [frame_rows.asks_status(synced=group)])) and time.monotonic() < ends:
            time.sleep(0.001)
        return found


def add_arguments(parser):
    add_program(parser)


def main(ztxg):
    rows = FrameRows(ztxg)
    rows.judge_unusable()
    rows.judge_refused()
    rows.judge_stream()
    rows.judge_records()
    rows.judge_rows()
    rows.judge_full()
    rows.judge_soon("a killed process", rows.replayed)
    rows.judge_loops()
    print(f"{rows.requests} requests, {rows.differences} differences")
    return int(rows.differences > 0)
