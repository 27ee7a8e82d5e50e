"""Files of pools that a program makes, each in a folder of its own that goes at the end."""

import contextlib
import os
import tempfile

from tools import Failed
from tools.harness.program import run
from tools.model.layout import MIB

SIZE = 8 * MIB
# A folder in memory, if there is one: for files that are made anew often.
IN_MEMORY = "/dev/shm" if os.path.isdir("/dev/shm") else None


@contextlib.contextmanager
def pool_file(room=None):
    """The path of a file that isn't there yet."""
    with tempfile.TemporaryDirectory(dir=room) as folder:
        yield os.path.join(folder, "tank.pool")


def create(ztxg, file, size=SIZE):
    """Makes a new pool in a file."""
    ran = run([ztxg, "create", file, "tank", "77", str(size)])
    if ran.status != 0:
        raise Failed(f"no pool was made: {ran}")
