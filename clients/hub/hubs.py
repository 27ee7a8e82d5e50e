"""A hub and its clients, as the tests start and ask them."""

import errno
import os
import pathlib
import signal
import socket
import struct
import subprocess
import sys
import tempfile
import time

TOP = pathlib.Path(__file__).resolve().parent.parent.parent
sys.path[:0] = [str(TOP), str(TOP / "clients/python")]

from tools.model.frames import HEAD, Opened, Request, read_answers, read_opening, requests_frame  # noqa: E402

SECONDS = 60
HOLDING, READING_ON, ASK_NUMBERS, NUMBERS = 6, 7, 8, 9
TIMES = 26  # the counts of a histogram
TIMED = ["read", "commit", "durable_commit"]

# The first numbers of a hub's frame (docs/FRAMES.md), and how many follow them.
SINGLE = """age clients most_clients connections turned_away waiting_frames frames server_frames most_shared_frames
commits durable_commits undurable_commits read_bytes written_bytes syncs dirty_limit""".split()
LISTS = {"requests": 10, "refused_requests": 23, "refused_frames": 9}

# A server in the place of `ztxg`: it hands frames on to one, and writes how many requests each has to a file. It waits
# before each frame, so that the next ones gather.
RECORDER = """#!{python}
import subprocess, sys, time
server = subprocess.Popen([{program!r}, *sys.argv[1:]], stdin=subprocess.PIPE, stdout=subprocess.PIPE)

def frame(source):
    head = source.read(4)
    return head and head + source.read(int.from_bytes(head, "little") - 4)

def tell(content):
    sys.stdout.buffer.write(content)
    sys.stdout.buffer.flush()

tell(frame(server.stdout))
while True:
    content = frame(sys.stdin.buffer)
    if not content:
        break
    with open({record!r}, "a") as record:
        record.write("%d\\n" % int.from_bytes(content[8:12], "little"))
    time.sleep({delay})
    server.stdin.write(content)
    server.stdin.flush()
    tell(frame(server.stdout))
server.stdin.close()
sys.exit(server.wait())
"""


class Fault(Exception):
    """Something is not as it has to be."""


def want(is_so, *what):
    if not is_so:
        raise Fault(" ".join(str(part) for part in what))


def wait_until(is_so, what):
    """Waits until something is so, which has to be soon."""
    end = time.monotonic() + SECONDS
    while not is_so():
        want(time.monotonic() < end, "it took too long:", what)
        time.sleep(0.01)


def children(process):
    """The numbers of the processes whose parent has this one."""
    for path in pathlib.Path("/proc").glob("[0-9]*/stat"):
        try:
            fields = path.read_text().rpartition(")")[2].split()
        except OSError:
            continue
        if int(fields[1]) == process:
            yield int(path.parent.name)


def processor_time(process):
    """The seconds that a process has worked."""
    fields = pathlib.Path(f"/proc/{process}/stat").read_text().rpartition(")")[2].split()
    return (int(fields[11]) + int(fields[12])) / os.sysconf("SC_CLK_TCK")


def read_numbers(content):
    """The numbers of a hub's frame: by their names, or a list of them."""
    length, version, kind, count = struct.unpack_from("<IHHI", content)
    want((length, version, kind) == (len(content), 1, NUMBERS), "the frame begins", content[:12].hex())
    values = list(struct.unpack_from(f"<{count}Q", content, HEAD))
    numbers = dict(zip(SINGLE, values))
    del values[: len(SINGLE)]
    for name, size in LISTS.items():
        numbers[name], values = values[:size], values[size:]
    for name in TIMED:
        numbers[name] = dict(sum=values[0], longest=values[1], counts=values[2 : 2 + TIMES])
        del values[: 2 + TIMES]
    want(not values, "there are more numbers:", values)
    return numbers


class Client:
    """A connection to a hub, and what it said first."""

    def __init__(self, path):
        self.socket = socket.socket(socket.AF_UNIX)
        self.socket.settimeout(SECONDS)
        self.socket.connect(str(path))
        self.opening = read_opening(self.receive())

    def send(self, content):
        self.socket.sendall(content)

    def take(self, count):
        content = b""
        while len(content) < count:
            more = self.socket.recv(count - len(content))
            if not more:
                raise EOFError(content)
            content += more
        return content

    def receive(self):
        """The next frame."""
        head = self.take(4)
        return head + self.take(int.from_bytes(head, "little") - 4)

    def ask(self, *requests, kind=1):
        """Sends requests, each a number, a call and what it needs, in one frame."""
        content = requests_frame([Request(*request) for request in requests])
        self.send(content[:6] + struct.pack("<H", kind) + content[8:])

    def answers(self):
        return read_answers(self.receive())

    def one(self, call, *needs, number=1):
        """What came of one request, and its content."""
        self.ask((number, call, needs[0] if call.startswith("transact") else needs))
        (answer,) = self.answers()
        want(answer.number == number, "the answer has the number", answer.number, "and not", number)
        return answer.came, answer.content

    def numbers(self):
        self.send(struct.pack("<IHHI", HEAD, 1, ASK_NUMBERS, 0))
        return read_numbers(self.receive())

    def is_ended(self):
        """Whether the hub ends the connection, and says nothing before."""
        try:
            return self.socket.recv(1) == b""
        except ConnectionResetError:
            return True

    def close(self):
        self.socket.close()


class Hub:
    """A hub of a pool in a folder of its own."""

    def __init__(self, tests, *options, program=None, folder=None, has_metrics=False, **process):
        self.tests = tests
        self.folder = pathlib.Path(folder or tempfile.mkdtemp(dir=tests.folder))
        self.file, self.path = self.folder / "tank.pool", self.folder / "socket"
        self.metrics = self.folder / "metrics"
        options = [*options, "--metrics", self.metrics] if has_metrics else options
        self.program = program or tests.program
        if not self.file.exists():
            made = [tests.program, "create", self.file, "tank", "77", str(64 << 20)]
            subprocess.run(made, check=True, stdout=subprocess.DEVNULL)
        self.errors = open(self.folder / "errors", "w+b")
        words = [tests.hub, self.file, "--socket", self.path, "--program", self.program, *options]
        self.process = subprocess.Popen([str(word) for word in words], stderr=self.errors, **process)
        tests.hubs.append(self)
        wait_until(lambda: self.process.poll() is not None or self.is_listening(), "the hub's start")

    def is_listening(self):
        try:
            Client(self.path).close()
            return True
        except (OSError, EOFError):
            return False

    def client(self):
        client = Client(self.path)
        while getattr(client.opening, "error", 0) == errno.EAGAIN:  # another one that was closed is there yet
            time.sleep(0.01)
            client = Client(self.path)
        want(isinstance(client.opening, Opened) and client.opening.guid == 77, "the opening is", client.opening)
        return client

    @property
    def server(self):
        (server,) = children(self.process.pid)
        return server

    def said(self):
        return (self.folder / "errors").read_text()

    def end(self, number=signal.SIGTERM, status=0):
        """Ends it by a signal."""
        self.process.send_signal(number)
        self.ends(status)

    def ends(self, status):
        found = self.process.wait(SECONDS)
        want(found == status, "the hub ends with", found, "and not", status, self.said())
        want(not self.path.exists() and not self.metrics.exists(), "a socket is still there")

    def kill(self):
        if self.process.poll() is None:
            self.process.kill()
            self.process.wait()
        self.errors.close()


class Tests:
    """What a test needs: the programs, and a folder that goes after it."""

    def __init__(self, chosen):
        self.program, self.hub, self.ctl = chosen.program, chosen.bin / "ztxg-hub", chosen.bin / "ztxg-ctl"
        self.chosen, self.hubs = chosen, []
        self.room = tempfile.TemporaryDirectory()
        self.folder = pathlib.Path(self.room.name)

    def recorder(self, delay):
        """A server that writes down how many requests each frame has, and the file that it does so to."""
        script, record = self.folder / "recorder", self.folder / "record"
        script.write_text(
            RECORDER.format(python=sys.executable, program=self.program, record=str(record), delay=delay)
        )
        script.chmod(0o755)
        return script, record

    def run(self, *words, status=0, **how):
        """Runs a command, and returns what it prints."""
        words = [str(word) for word in words]
        ran = subprocess.run(words, capture_output=True, timeout=10 * SECONDS, **how)
        want(ran.returncode == status, words, "ends with", ran.returncode, ran.stdout[-2000:], ran.stderr[-2000:])
        return ran

    def end(self):
        for hub in self.hubs:
            hub.kill()
        self.room.cleanup()


__all__ = ["HEAD", "HOLDING", "READING_ON", "TIMED", "TOP"]
__all__ += ["Client", "Fault", "Hub", "Tests", "children", "os", "processor_time", "wait_until", "want"]
