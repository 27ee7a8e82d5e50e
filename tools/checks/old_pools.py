"""Imports pools of version 1, crashes each import at each of its device calls, and judges what is mounted then.

The pools are those of `tools/rows/old_pools.py`. An import of each shows its name, its records and its objects, and
makes the calls that `docs/FORMATS.md` says. `cc` compiles a `pwrite64` and an `fsync` that note them with the bytes of
the writes (`tools/harness/shims/calls.c`).

From these calls the image of each crash is made: after each call, with strings of kept, lost and torn writes over those
that no flush came after. These are all strings over up to four writes, or over three in the full pools. Over more they
keep, lose or tear all, or all but one. An image has to mount the same. Without an uberblock of the import it is a pool
of version 1 as before. With one it is a pool of version 2, four groups later. `check`, `show` and the next import have
to say so, as for the images of `hostile`.

Each difference is printed, and then the status is 1. The end prints how many images were judged.
"""

import pathlib

from tools.checks.hostile import Bench
from tools.harness import shims
from tools.harness.judge import Judge
from tools.harness.pool_files import IN_MEMORY, SIZE, pool_file
from tools.harness.program import add_program, run
from tools.model.contents import digest
from tools.model.layout import BLOCK, CONFIG_AT, SLOT, VERSION, label_places, slot_places
from tools.model.pool_image import Image, free_places, mount, read_pool
from tools.rows.crash_rows import some_strings
from tools.rows.old_pools import FULL, POOLS
from tools.rows.script_row import all_strings

SECONDS = 60
MANY = 4
TORN = b"\xaa"
FLUSH = ("fsync", 0, 0)


def calls_of(mounted, size=SIZE):
    """The calls of an import of a pool that mounts this: a flush; the blocks of its records, at the lowest free places,
    and a flush; the configs of labels 0 and 2, the uberblocks, and the configs of labels 1 and 3, each with a flush.
    The device has this size."""
    group = mounted.uberblock.group + 4
    blocks = [("write", place, BLOCK) for place in free_places(mounted)[: mounted.needed - 1]]
    configs = [("write", label + CONFIG_AT, BLOCK) for label in label_places(size)]
    uberblocks = [("write", place, SLOT) for place in slot_places(size, group)]
    return [FLUSH, *blocks, FLUSH, *configs[::2], FLUSH, *uberblocks, FLUSH, *configs[1::2], FLUSH]


def most_strings(count):
    """All strings over up to four writes, and some over more."""
    return (all_strings if count <= MANY else some_strings)(count)


def crashes(before, calls, strings=most_strings):
    """The images that a crash leaves after each of these calls on a device with the bytes `before`: what was made, the
    letters, the image, and whether an uberblock of the last group stands in it. A call is None for a flush, or a write
    with its place, its bytes and whether it is an uberblock. These strings of letters are over the unflushed writes."""
    flushed, unflushed, is_mounted = bytearray(before), [], False
    for made, call in enumerate([None, *calls]):
        if call:
            unflushed.append(call)
        else:
            is_mounted = is_mounted or any(is_uberblock for _, _, is_uberblock in unflushed)
            for place, content, _ in unflushed:
                flushed[place : place + len(content)] = content
            unflushed = []
        for letters in strings(len(unflushed)):
            image, stands = Image(bytearray(flushed)), is_mounted
            for letter, (place, content, is_uberblock) in zip(letters, unflushed):
                if letter != "l":
                    image.put(place, content if letter == "k" else TORN * len(content))
                stands = stands or is_uberblock and letter == "k"
            yield made, letters, image, stands


def with_bytes(calls, content, uberblocks):
    """The calls with the bytes of their writes, which are these one after the other, and whether they are at one of the
    places of uberblocks."""
    at = 0
    for name, place, size in calls:
        yield (place, content[at : at + size], place in uberblocks) if name == "write" else None
        at += size


class OldPools(Judge):
    """Imports of pools in a file."""

    def __init__(self, ztxg, shim, path):
        super().__init__("old_pools")
        self.ztxg, self.shim, self.path, self.images = ztxg, shim, path, 0
        self.bench = Bench(ztxg, path)

    def judge_import(self, title, before, name, records, objects):
        """An import of a pool, and the calls that it makes: each None for a flush, or a write."""
        group = before.active().group
        lines = {"import 1048576": f"synced {group + 4} open {group + 5} records {records}"}
        lines.update({"name": f"name {name.decode()}", "digest": f"digest {digest(name, objects)}"})
        lines.update({f"length {number}": f"length {len(content)}" for number, content in objects.items()})
        pathlib.Path(self.path).write_bytes(before.content)
        noted, copied = f"{self.path}.calls", f"{self.path}.bytes"
        for path in (noted, copied):
            pathlib.Path(path).write_bytes(b"")
        environment = self.shim.environment(CALLS_FILE=noted, BYTES_FILE=copied)
        words = [self.ztxg, "script", "--file", self.path, "-"]
        found = run(words, lines, SECONDS, env=environment).in_lines()
        if found != (0, [*lines.values()], []):
            self.differ(f"{title}: an import says", found, "and not", [*lines.values()])
        calls, wanted = shims.noted_calls(noted), calls_of(mount(read_pool(before)), before.size)
        if calls != wanted:
            self.differ(f"{title}: an import makes", calls, "and not", wanted)
        return with_bytes(calls, pathlib.Path(copied).read_bytes(), slot_places(before.size, group + 4))

    def judge_crashes(self, title, before, calls, strings):
        """Each image of a crash mounts what the pool mounted before."""
        wanted, group = mount(read_pool(before)), before.active().group
        for made, letters, image, stands in crashes(before.content, calls, strings):
            self.images += 1
            what = f"{title}: a crash after {made} calls with `{letters}`"
            mounted = mount(read_pool(image))
            if (mounted.name, mounted.objects) != (wanted.name, wanted.objects):
                self.differ(f"{what} mounts another pool")
            active = mounted.uberblock
            if (active.group, active.version) != ((group + 4, VERSION) if stands else (group, 1)):
                self.differ(f"{what} mounts group {active.group} of version {active.version}")
            if difference := self.bench.judge(image):
                self.differ(f"{what}: {difference}")

    def judge(self, strings, title, make, *shown):
        before = make()
        calls = list(self.judge_import(title, before, *shown))
        self.judge_crashes(title, before, calls, strings)


def add_arguments(parser):
    add_program(parser)


def main(ztxg):
    with shims.compiled("calls") as shim, pool_file(IN_MEMORY) as path:
        pools = OldPools(ztxg, shim, path)
        for row in POOLS:
            pools.judge(most_strings, *row)
        for row in FULL:
            pools.judge(some_strings, *row)
    print(f"{len(POOLS + FULL)} pools, {pools.images} images, {pools.differences} differences")
    return int(pools.differences > 0)
