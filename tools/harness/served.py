"""A process that serves a pool: its opening, and the frames that it gets and answers."""

import subprocess

from tools import Failed
from tools.model.frames import Opened, read_opening

SECONDS = 60


class Served:
    """A process that serves a pool, and what its opening says. It may get options of `serve`, and what
    `subprocess.Popen` takes besides. If it doesn't open the pool, `Failed` says why."""

    def __init__(self, ztxg, file, *options, **process):
        pipe = subprocess.PIPE
        words = [ztxg, "serve", file, *options]
        self.process = subprocess.Popen(words, stdin=pipe, stdout=pipe, stderr=pipe, **process)
        self.opening = read_opening(self.answer())
        if not isinstance(self.opening, Opened):
            raise Failed(f"serve doesn't open {file}: {self.opening}, {self.ended()}")

    def send(self, content):
        self.process.stdin.write(content)
        self.process.stdin.flush()

    def answer(self):
        """The next frame that the process writes."""
        head = self.process.stdout.read(4)
        length = int.from_bytes(head, "little")
        frame = head + self.process.stdout.read(max(length - len(head), 0))
        if len(head) < 4 or len(frame) != length:
            raise Failed(f"serve writes {frame.hex() or 'nothing'} in place of a frame, {self.ended()}")
        return frame

    def ended(self):
        """How the process ends, once it wrote what was no answer."""
        _, errors = self.process.communicate(timeout=SECONDS)
        return f"and ends with {self.process.returncode} {errors}"

    def end(self):
        self.process.stdin.close()
        rest, errors = self.process.stdout.read(), self.process.stderr.read()
        if self.process.wait() != 0 or rest or errors:
            raise Failed(f"the end of the input: {self.process.returncode} {rest} {errors}")

    def kill(self):
        self.process.kill()
        self.process.communicate()
