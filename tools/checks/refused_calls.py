"""Refuses one call of a command on a pool's file, or its output, and judges what the command says and leaves.

`cc` compiles a `pwrite64`, a `pread64` and an `fsync` that refuse one call of a run with `EIO`
(`tools/harness/shims/refusals.c`), and a `write` for which standard output has room for some bytes alone
(`tools/harness/shims/output.c`).

- `put`, `rm`, `show` and `get`, whose write, flush or read is refused, or none. With `-v` they say which call it was. A
  `put` says what it had committed, and its bytes are there if they are said to be durable.
- `serve`, whose write, flush or read is refused before it opens the pool: its opening says so, and with which error.
- `serve`, whose flush is refused when a commit is to be made durable: that commit is answered 11, all later ones are
  refused, and what was durable stays so. No flush is made again.
- `serve` on a file that becomes shorter meanwhile: reads and writes are refused, and no byte of it is written.
- `serve`, whose output has room for some bytes, or is a pipe that its reader closes, also while an answer that is
  longer than the pipe is written; or whose input fails. What went out is a front of the opening and the answers, each
  once. The status is 3, and nothing is said. The pool has what was answered as durable.

Each difference is printed, and then the status is 1.
"""

import errno
import os
import pathlib
import re
import shlex
import socket
import struct
import subprocess
import tempfile

from tools.harness import program, shims
from tools.harness.judge import Judge
from tools.harness.pool_files import SIZE, create, pool_file
from tools.harness.program import Ran, add_program
from tools.harness.served import Served
from tools.model.frames import Request, Server, Unopened, read_answers, refusal_bytes, requests_frame
from tools.model.layout import CONFIG_AT, label_places
from tools.rows.frame_rows import STREAM, is_unopened

SECONDS = 60
TRIES = 40
KINDS = ["write", "flush", "read"]
REFUSALS = {"write": "3 Write", "flush": "4 Flush", "read": "2 Read"}
EIO = f"{os.strerror(errno.EIO)} (os error {errno.EIO})"
# An import writes the configs of labels 0 and 2 first, and those of labels 1 and 3 last.
FIRST_WRITE, LAST_WRITE = (f"write at byte {label_places(SIZE)[label] + CONFIG_AT}: {EIO}" for label in (0, 3))
FLUSH = f"flush: {EIO}"
READ = rf"read at byte \d+: {re.escape(EIO)}"

# A `put` of two transactions on a new pool. Its import makes five flushes, and the sync of its group two
# (docs/FORMATS.md, 4 and 5).
BYTES = "a" * 100_000
DONE = f"put {len(BYTES)} bytes in 2 transactions\n"
LOST = f"ztxg: committed {len(BYTES)} bytes in 2 transactions, not durable\n"
PUTS = [
    ("flush", 1, FLUSH, ""),
    ("flush", 5, FLUSH, ""),
    ("flush", 6, FLUSH, LOST),
    ("flush", 7, FLUSH, LOST),
    ("flush", 8, None, None),
    ("write", 1, FIRST_WRITE, ""),
    ("write", 8, LAST_WRITE, ""),
]
CREATE = [("c", 2, 0, b"")]
# Why a served pool isn't open.
UNOPENED = [
    ("flush", Unopened(4, 0, 0, errno.EIO, FLUSH)),
    ("write", Unopened(3, 0, 0, errno.EIO, FIRST_WRITE)),
    ("read", Unopened(2, 0, 0, errno.EIO, None)),
]
# What a served pool says at its end that was suspended.
SUSPENDED = rf"ztxg: refused (4 Flush|5 Suspended)\nztxg: cause: {re.escape(FLUSH)}\n"
SHORTER = r"ztxg: refused (3 Write|5 Suspended)\nztxg: cause: (write at byte \d+|flush): the file has become shorter\n"
NEW = "name tank\nguid 77\ngroup 4\nimport 0\nblocks 896 used 0\nrecords 0\nobjects 0\n"
# For so many bytes the output has room: about the ends of the opening and of each answer.
ROOMS = [0, 1, 35, 36, 37, 48, 158, 159, 160, 170, 171, 172, 218, 219]
# Bytes that are written durably, and then read four times by one frame: its answer is longer than a pipe. So many bytes
# of the answers are read before the pipe is closed.
LONG = b"7" * 60_000
LONG_FRAMES = [
    requests_frame([Request(1, "transact_durably", [("c", 1, 0, b""), ("w", 1, 0, LONG)])]),
    requests_frame([Request(number, "read", (1, 0, len(LONG))) for number in range(2, 6)]),
]
COUNTS = [0, 1, 36, 37, 38, 5_000, 100_000]


def cause(text):
    return f"ztxg: cause: {text}\n"


class RefusedCalls(Judge):
    """Runs on a new pool in a file, one call of which may be refused."""

    def __init__(self, ztxg, shim, output, counts, file):
        super().__init__("refused_calls")
        self.ztxg, self.shim, self.output, self.counts, self.file, self.runs = ztxg, shim, output, counts, file, 0

    def environment(self, kind="", at=0):
        self.runs += 1
        self.counts.clear()
        return self.shim.environment(FAIL_KIND=kind, FAIL_AT=str(at), COUNT_FILE=self.counts.path)

    def make(self):
        pathlib.Path(self.file).unlink(missing_ok=True)
        create(self.ztxg, self.file)

    def ends(self, words, kind, at, status, out="", errors="", text=()):
        """How a run has to end in which this call of a kind is refused."""
        environment = self.environment(kind, at)
        ran = program.run([self.ztxg, *words], text, SECONDS, env=environment)
        found = ran.status, ran.text(), ran.error_text()
        if found != (status, out, errors):
            self.differ(f"{kind} {at} of {words} ends with", found, "and not with", (status, out, errors))

    def judge_puts(self):
        for kind, at, told, lost in PUTS:
            self.make()
            words = ["put", "-v", self.file, "7"]
            # The line that is put has a newline, too.
            text = [BYTES[:-1]]
            if told is None:
                self.ends(words, kind, at, 0, DONE, text=text)
                self.ends(["get", self.file, "7"], "", 0, 0, BYTES[:-1] + "\n")
                continue
            self.ends(words, kind, at, 1, "", f"ztxg: refused {REFUSALS[kind]}\n{cause(told)}{lost}", text)
            if self.counts.read()[kind] != at:
                self.differ(f"a {kind} is made after {at} of a put is refused")
            self.judge_whole(f"{kind} {at} of a put")

    def judge_whole(self, what):
        """The pool has to be whole after this."""
        checked = program.run([self.ztxg, "check", self.file])
        if checked.status:
            self.differ(what, "leaves a pool of which check says", checked)

    def judge_causes(self):
        self.make()
        file, made = self.file, pathlib.Path(self.file).read_bytes()
        write = f"ztxg: refused {REFUSALS['write']}\n{cause(FIRST_WRITE)}"
        self.ends(["rm", "-v", file, "7"], "write", 1, 1, "", write)
        flush = f"ztxg: refused {REFUSALS['flush']}\n{cause(FLUSH)}"
        self.ends(["put", "-v", file, "7"], "flush", 1, 1, "", flush)
        for words in (["check", file], ["ls", file], ["get", file, "7"], ["rm", file, "7"]):
            self.judge_read(words, 1)
        # Four arrays of uberblocks and four configs are read, and no tree.
        for at in range(1, 9):
            self.judge_read(["show", file], at)
        self.ends(["show", file], "read", 9, 0, NEW)
        for kind, opening in UNOPENED:
            ran = program.run([self.ztxg, "serve", "-v", file], (), SECONDS, env=self.environment(kind, 1))
            if not is_unopened(opening, file, ran):
                self.differ(f"{kind} 1 of serve ends with", ran, "and not with", opening)
        if pathlib.Path(file).read_bytes() != made:
            self.differ("a run whose call is refused before its first write changes the file")

    def judge_read(self, words, at):
        """How a run has to end in which this read is refused."""
        ran = program.run([self.ztxg, "-v", *words], (), SECONDS, env=self.environment("read", at))
        told = f"ztxg: refused {REFUSALS['read']}\n{cause(READ)}"
        if (ran.status, ran.out) != (1, b"") or not re.fullmatch(told, ran.error_text()):
            self.differ(f"read {at} of {words} ends with", ran)

    # A served pool

    def ask(self, served, *frames):
        """What came of each request of these frames, with its content. All are sent before the first one is answered,
        so that they take no longer than they must."""
        for requests in frames:
            served.send(requests_frame([Request(at, *request) for at, request in enumerate(requests)]))
        answers = [answer for _ in frames for answer in read_answers(served.answer())]
        return [(answer.came, answer.content) for answer in answers]

    def end(self, served):
        """The status of a process and its errors, after the end of its input."""
        served.process.stdin.close()
        rest, errors = served.process.stdout.read(), served.process.stderr.read()
        return served.process.wait(), (rest + errors).decode()

    def judge_soon(self, what, wanted, try_once):
        """What is found has to be this in one of some tries: a thread of the process may sync a group meanwhile."""
        for _ in range(TRIES):
            found = try_once()
            if found == wanted:
                return
        self.differ(what, "ends with", found, "and not with", wanted)

    def flushes_of_import(self):
        """How many flushes a served pool has made before its opening."""
        self.make()
        served = Served(self.ztxg, self.file, env=self.environment())
        count = self.counts.read()["flush"]
        self.end(served)
        return count

    def failed_flush(self, flush):
        """What is answered of five commits if this flush is refused, the status, whether the file has what was durable,
        and how many flushes were made."""
        self.make()
        served = Served(self.ztxg, self.file, "-v", env=self.environment("flush", flush))
        commits = [[("transact_durably", [("w", 2, 0, b"%d" % at)] if at else CREATE)] for at in range(5)]
        last = [("flush", ()), *(("durable", (at, 9)) for at in range(5)), ("name", ())]
        found = self.ask(served, *commits, last)
        status, errors = self.end(served)
        got = program.run([self.ztxg, "get", self.file, "2"]).out
        is_told = re.fullmatch(SUSPENDED, errors) is not None
        return found, status, is_told, got in (b"2", b"3"), self.counts.read()["flush"]

    def judge_failed_flush(self):
        receipts = [struct.pack("<QQ", at, 9) for at in range(4)]
        wanted = [(2, receipts[0]), (2, receipts[1]), (2, receipts[2]), (11, receipts[3] + refusal_bytes(4))]
        wanted += [(0, refusal_bytes(5))] * 2 + [(7, bytes([at < 3])) for at in range(5)] + [(10, b"\4\0\0\0tank")]
        last = self.flushes_of_import() + 4
        wanted = wanted, 1, True, True, last
        self.judge_soon("a served pool whose flush is refused", wanted, lambda: self.failed_flush(last))

    def shorter(self):
        """What is answered of requests once the file was cut, the status, whether the cause is told, and whether the
        file stays."""
        self.make()
        self.ends(["put", self.file, "1"], "", 0, 0, "put 6 bytes in 1 transactions\n", text=["hello"])
        served = Served(self.ztxg, self.file, "-v")
        os.truncate(self.file, SIZE // 4)
        cut = pathlib.Path(self.file).read_bytes()
        asked = [("read", (1, 0, 6)), ("transact_durably", [("w", 2, 0, b"later")]), ("transact_durably", CREATE)]
        found = self.ask(served, *([request] for request in [*asked, ("flush", ())]))
        status, errors = self.end(served)
        is_told = re.fullmatch(SHORTER, errors) is not None
        return [content[-17:] for _, content in found], status, is_told, pathlib.Path(self.file).read_bytes() == cut

    def judge_shorter(self):
        wanted = [refusal_bytes(number) for number in (2, 9, 3, 5)], 1, True, True
        self.judge_soon("a file that becomes shorter", wanted, self.shorter)

    # Standard streams

    def judge_output(self, what, ran, status, out, durable=b""):
        """How a process has to end one of whose streams fails, what went out, and what object 1 has then."""
        self.runs += 1
        if ran != (status, out, b""):
            right = len(os.path.commonprefix([ran.out, out]))
            found = f"{ran.status}, {ran.errors} and {len(ran.out)} bytes, the first {right} of them right"
            self.differ(f"{what} ends with {found}, and not with {status} and {len(out)} bytes")
        self.judge_whole(what)
        if durable and program.run([self.ztxg, "get", self.file, "1"]).out != durable:
            self.differ(what, "doesn't leave what was answered as durable")

    def judge_rooms(self):
        """An output that has room for some bytes."""
        server, frames = Server(), STREAM[:3]
        answers = [server.opening(), *map(server.answer, frames)]
        stream, whole, durable_at = b"".join(frames), b"".join(answers), len(answers[0] + answers[1])
        for room in ROOMS:
            self.make()
            words, environment = [self.ztxg, "serve", self.file], self.output.environment(OUTPUT_ROOM=str(room))
            with tempfile.TemporaryFile() as out:
                ended = subprocess.run(
                    words, input=stream, stdout=out, stderr=subprocess.PIPE, env=environment, timeout=SECONDS
                )
                out.seek(0)
                ran = Ran(ended.returncode, out.read(), ended.stderr)
            status, durable = 3 if room < len(whole) else 0, b"hello" if room >= durable_at else b""
            self.judge_output(f"an output that has room for {room} bytes", ran, status, whole[:room], durable)

    def judge_inputs(self):
        """Streams that are closed, and an input that fails after some frames, or within one: its other end left a byte
        unread."""
        server, frames = Server(), STREAM[:3]
        answers = [server.opening(), *map(server.answer, frames)]
        for closed, out in [("<&-", answers[0]), (">&-", b"")]:
            self.make()
            line = f"exec {shlex.join([self.ztxg, 'serve', self.file])} {closed}"
            self.judge_output(f"serve {closed}", program.run(["sh", "-c", line], (), SECONDS), 3, out)
        for count in (0, 2, 20):
            self.make()
            ours, theirs = socket.socketpair()
            ours.sendall(b"".join(frames) + frames[0][:count])
            theirs.send(b"x")
            ours.close()
            with theirs:
                words = [self.ztxg, "serve", self.file]
                ended = subprocess.run(words, stdin=theirs, capture_output=True, timeout=SECONDS)
            ran = Ran(ended.returncode, ended.stdout, ended.stderr)
            self.judge_output(f"an input that fails {count} bytes later", ran, 3, b"".join(answers), b"hello")

    def judge_pipes(self):
        """A pipe that is closed before the opening is written, and one after some bytes of the answers."""
        self.make()
        reading, writing = os.pipe()
        os.close(reading)
        ran = program.run([self.ztxg, "serve", self.file], (), SECONDS, writing)
        os.close(writing)
        self.judge_output("a closed pipe", ran, 3, b"")
        server = Server()
        answers = [server.answer(content) for content in LONG_FRAMES]
        for count in COUNTS:
            self.make()
            served = Served(self.ztxg, self.file)
            for content in LONG_FRAMES:
                served.send(content)
            process, out = served.process, served.process.stdout.read(count)
            process.stdout.close()
            ran = Ran(process.wait(SECONDS), out, process.stderr.read())
            process.stdin.close()
            durable = LONG if count >= len(answers[0]) else b""
            self.judge_output(f"a pipe that is closed after {count} bytes", ran, 3, b"".join(answers)[:count], durable)


def add_arguments(parser):
    add_program(parser)


def main(ztxg):
    with shims.compiled("refusals") as shim, shims.compiled("output") as output:
        with shims.shared_counts(*KINDS) as counts, pool_file() as file:
            judge = RefusedCalls(ztxg, shim, output, counts, file)
            judge.judge_puts()
            judge.judge_causes()
            judge.judge_failed_flush()
            judge.judge_shorter()
            judge.judge_rooms()
            judge.judge_pipes()
            judge.judge_inputs()
    print(f"{judge.runs} runs, {judge.differences} differences")
    return int(judge.differences > 0)
