"""C libraries that stand before functions of the C library in a run, by `LD_PRELOAD`. `cc` compiles them."""

import contextlib
import os
import pathlib
import subprocess
import sys
import tempfile

SOURCES = pathlib.Path(__file__).parent / "shims"
NUMBER = 8


class Shim:
    """A compiled library of `shims`, in a folder that has its other files too."""

    def __init__(self, name, folder):
        self.library = os.path.join(folder, f"{name}.so")
        source = SOURCES / f"{name}.c"
        subprocess.run(["cc", "-O2", "-shared", "-fPIC", source, "-o", self.library, "-ldl"], check=True)

    def environment(self, **variables):
        """What a run gets in which the library stands, and finds these variables too."""
        return {**os.environ, "LD_PRELOAD": self.library, **variables}


@contextlib.contextmanager
def compiled(name):
    """A shim whose files go at the end."""
    with tempfile.TemporaryDirectory() as folder:
        yield Shim(name, folder)


def noted_calls(path):
    """The calls that the shim `calls` noted in a file, each with its name, its place and its size."""
    lines = [line.split() for line in pathlib.Path(path).read_text().splitlines()]
    return [(name, int(place), int(size)) for name, place, size in lines]


class Counts:
    """A file of numbers that a shim counts in, one for each of these names."""

    def __init__(self, file, names):
        self.path, self.names = file.name, names
        self.clear()

    def clear(self):
        pathlib.Path(self.path).write_bytes(bytes(NUMBER * len(self.names)))

    def read(self):
        content = pathlib.Path(self.path).read_bytes()
        places = range(0, len(content), NUMBER)
        return dict(zip(self.names, (int.from_bytes(content[at : at + NUMBER], sys.byteorder) for at in places)))


@contextlib.contextmanager
def shared_counts(*names):
    """A file for numbers of these names, which goes at the end."""
    with tempfile.NamedTemporaryFile() as file:
        yield Counts(file, names)
