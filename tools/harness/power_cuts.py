"""Power cuts of a run that the shim `calls` noted: what its files hold after each.

A cut lies between two calls of the run. The disk has what a file was given before the last flush of it that has ended.
Each later write hands each of its sectors to the disk, as the file has the whole sector then. The disk has stored it or
lost it, by chance, and the last stored one stands. Lengths and removals of files are stored at once: that favours the
programs that don't flush.
"""

import os
import pathlib
from typing import NamedTuple

SECTOR = 512


class Call(NamedTuple):
    """A call of a run: its name, the name of its file, and its place with the bytes of a write, or the size."""

    name: str
    file: str
    place: int
    size: int
    content: bytes


class Recorder:
    """Where the calls of a run are noted."""

    def __init__(self, shim, folder):
        self.shim, self.noted = shim, pathlib.Path(folder, "noted")
        self.copied = pathlib.Path(folder, "copied")

    def environment(self):
        """That of a process whose calls are noted from now on."""
        for file in (self.noted, self.copied):
            file.write_bytes(b"")
        files = {"CALLS_FILE": str(self.noted), "BYTES_FILE": str(self.copied)}
        return self.shim.environment(**files, NOTE_OUTPUT="1", NOTE_FILES="1")

    def calls(self):
        """The calls that were noted."""
        content, at, calls = self.copied.read_bytes(), 0, []
        for line in self.noted.read_text().splitlines():
            name, place, size, *file = line.split(" ", 3)
            written = content[at : at + int(size)] if name == "write" else b""
            at += len(written)
            calls.append(Call(name, *file or [""], int(place), int(size), written))
        return calls


class OneFile:
    """The bytes of a file as programs read them, those on the disk, and the sectors that no ended flush has stored."""

    def __init__(self, content=b""):
        self.content, self.stored = bytearray(content), bytearray(content)
        self.handed, self.flushing = [], 0

    def write(self, place, content):
        end = place + len(content)
        self.content.extend(bytes(max(end - len(self.content), 0)))
        self.content[place:end] = content
        for at in range(place - place % SECTOR, end, SECTOR):
            self.handed.append((at, bytes(self.content[at : at + SECTOR])))

    def end_flush(self):
        put_sectors(self.stored, self.handed[: self.flushing])
        self.handed, self.flushing = self.handed[self.flushing :], 0

    def resize(self, size):
        for content in (self.content, self.stored):
            content.extend(bytes(max(size - len(content), 0)))
            del content[size:]
        self.flushing = sum(at < size for at, _ in self.handed[: self.flushing])
        self.handed = [(at, sector[: size - at]) for at, sector in self.handed if at < size]

    def after_cut(self, chance, share):
        """What it holds after a cut that stores each sector with this probability."""
        image = bytearray(self.stored)
        put_sectors(image, [one for one in self.handed if chance.random() < share])
        return bytes(image.ljust(len(self.content), b"\0")[: len(self.content)])


def put_sectors(image, sectors):
    """Writes sectors into an image, which becomes longer if it must."""
    for at, sector in sectors:
        image.extend(bytes(max(at + len(sector) - len(image), 0)))
        image[at : at + len(sector)] = sector


class Disk:
    """The files of a run, by their names."""

    def __init__(self, before):
        self.files = {name: OneFile(content) for name, content in before.items()}

    def make(self, call):
        file = self.files.setdefault(call.file, OneFile()) if call.file else None
        if call.name == "write":
            file.write(call.place, call.content)
        elif call.name in ("fsync", "fdatasync"):
            file.flushing = len(file.handed)
        elif call.name == "synced":
            file.end_flush()
        elif call.name == "size":
            file.resize(call.size)
        elif call.name == "removed":
            del self.files[call.file]

    def after_cut(self, chance, share):
        return {name: file.after_cut(chance, share) for name, file in self.files.items()}


def cuts(before, calls, count, chance):
    """So many cuts by chance of a run that begins with these files: how many outputs came before each, and what the
    files hold. Of each cut its place is drawn, and how likely it stores a sector."""
    places = sorted(chance.randrange(len(calls) + 1) for _ in range(count))
    disk, made, outputs = Disk(before), 0, 0
    for place in places:
        for call in calls[made:place]:
            disk.make(call)
            outputs += call.name == "output"
        made = place
        yield outputs, disk.after_cut(chance, chance.random())


def put_files(folder, files):
    """Makes a folder hold these files alone."""
    for name in os.listdir(folder):
        os.unlink(os.path.join(folder, name))
    for name, content in files.items():
        pathlib.Path(folder, name).write_bytes(content)


def read_files(folder):
    return {path.name: path.read_bytes() for path in pathlib.Path(folder).iterdir()}
