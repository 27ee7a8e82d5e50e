"""Judges images of a hostile writer by chance, by `check`, `show` and an import.

The program makes a few pools in files, and some are taken for pools of version 1, too. COUNT times the image of one of
them gets one to three edits by chance, with the checks above them made right (`tools/rows/hostile_edits.py`). What the
image mounts is worked out by Python alone (`tools/model/pool_image.py`). Then these have to print exactly that, without
a crash or a hang:

- `check FILE` and `show FILE`, which leave the file as it is;
- a script on the file, which imports the pool and prints its name, its digest and the lengths of objects. A refused
  import leaves the file as it is;
- after an import `check` and `show` again: the same contents, four groups and one import later, by the version that is
  written. Each label has a config of that group with the name.

The first difference ends it with status 1, and prints the number of its image. The same SEED makes the same images. The
end prints how many images were judged how, and which edits they had.
"""

import collections
import multiprocessing
import pathlib
import random

from tools import Failed
from tools.harness.pool_files import IN_MEMORY, pool_file
from tools.harness.program import Lines, add_program, run
from tools.model.contents import digest
from tools.model import layout
from tools.model.layout import CONFIG_AT, DIRTY_MAX, NAMED, RECORD, STRIP, VERSION, label_places
from tools.model.pool_bytes import Config, number_at, read_config
from tools.model.pool_image import (
    BadGeometry,
    Damaged,
    Image,
    NoPool,
    import_line,
    mount,
    read_pool,
    show_lines,
)
from tools.model.serial_pool import LEAST
from tools.rows.hostile_edits import Edits

SECONDS = 60


# The pools: for each the scripts that make it, one import in each.


def transact(tx, shapes, *words):
    """A transaction on locked objects."""
    return [f"begin 1 {shapes}", " ".join(["commit", str(tx), *words])]


def start(objects):
    """An import, and locks of objects and of the name."""
    return [f"import {DIRTY_MAX}", *(f"lock 1 {number} w 0 {layout.MAX_LENGTH}" for number in [*objects, NAMED])]


def several():
    """Objects in three directories, with holes, over two imports. Then a log of four blocks, with records of the synced
    group and of two later ones. The synced group and one of the later ones give the pool a name."""
    objects = [0, 1, 2, 62, 63, 5_291]
    first = ["create tank 77", *start(objects)]
    first += transact(0, "c:0 w:0:0:5 w:0:8064:10", "hello", "@10:z") + transact(1, "c:1 c:2 w:2:4030:4", "abcd")
    first += transact(2, "c:62 l:62:9000 c:63 w:63:0:3", "xyz") + ["sync"]
    first += transact(3, "c:5291 w:5291:338000:600", "@600:q") + transact(4, "w:0:4032:3000", "@3000:m") + ["sync"]
    second = start(objects)
    second += transact(0, "w:1:0:3900", "@3900:a") + transact(1, "d:62") + ["sync"]
    second += transact(2, "w:2:0:6 n:6", "synced", "synced") + ["close", "log-write"]
    second += transact(3, "c:62 w:62:7:2000", "@2000:b") + transact(4, "w:63:1:1500", "@1500:c") + ["log-write"]
    second += transact(5, "l:0:4100 n:4", "pond") + ["log-write", "log-flush"]
    second += transact(6, "w:5291:0:3000", "@3000:d") + ["log-write", "quiesce", "start", "finish"]
    second += transact(7, "d:1") + ["log-write", "log-flush"]
    return [first, second]


def long_ones():
    """A log with two long records and a short one between them, and one of which the last part isn't written. The first
    one is of the synced group, and was begun before that group's sync."""
    lines = ["create lake 77", *start([0, 1, 2])]
    lines += transact(0, "c:0 c:1 w:1:0:5000", "@5000:a") + ["sync"]
    lines += transact(1, "w:0:0:9000", "@9000:b") + ["log-write"] * 2 + ["close"]
    lines += transact(2, "w:1:3:5000 c:2 n:4", "@5000:c", "long") + ["quiesce", "start", "finish"] + ["log-write"] * 3
    lines += transact(3, "l:0:8100") + transact(4, "w:2:0:16000", "@16000:d") + ["log-write"] * 5 + ["log-flush"]
    return [lines]


def small():
    """One object, and a log of one block with two records."""
    lines = ["create pond 12345678901234567", *start([1, 2])]
    lines += transact(0, "c:1 w:1:0:4", "abcd") + ["sync"]
    lines += transact(1, "c:2") + transact(2, "w:1:100:4", "wxyz") + ["log-write", "log-flush"]
    return [lines]


def empty():
    return [["create tank 77", f"import {DIRTY_MAX}"], [f"import {DIRTY_MAX}"]]


def full():
    """Four objects of 72 records each and a small one, and a log of one block. 89 of 384 blocks are free."""
    lines = ["create tank 77", *start(range(5))]
    lines += transact(0, "c:0 c:1 c:2 c:3 c:4") + ["sync"]
    for tx in range(1, 73):
        number, first = divmod(4 * (tx - 1), 72)
        shapes = (f"w:{number}:{RECORD * record}:900" for record in range(first, first + 4))
        lines += transact(tx, " ".join(shapes), *["@900:e"] * 4) + ["sync"] * (tx % 3 == 0)
    lines += transact(73, "w:4:0:1", "f") + ["log-write", "log-flush"]
    return [lines]


def tall():
    """Objects of two levels of indirect blocks: one with records about the ends of its strips, one of the greatest
    length, one without a block, and one that was cut to one level. Then a log of two blocks, whose records take objects
    from one level to two and back."""
    top, lines = layout.MAX_LENGTH, ["create tank 77", *start(range(4))]
    lines += transact(0, f"c:0 w:0:{STRIP - 4}:8 w:0:{2 * STRIP - 2}:4", "abcdefgh", "ijkl")
    lines += transact(1, f"c:1 w:1:{top - 5}:5 w:1:0:1", "hello", "m") + transact(2, f"c:2 l:2:{STRIP + 1}")
    lines += transact(3, f"c:3 w:3:{STRIP - 1}:2 l:3:{STRIP}", "no") + ["sync"]
    lines += transact(4, f"w:0:{5 * STRIP}:3 l:1:{top - 3}", "pqr") + ["sync"]
    lines += transact(5, f"l:0:{STRIP}") + transact(6, f"w:3:{STRIP + 9}:3", "stu") + ["log-write"]
    lines += transact(7, f"l:1:{2 * STRIP} w:2:0:3", "vwx") + transact(8, f"w:0:{STRIP}:1", "y")
    return [lines + ["log-write", "log-flush"]]


# The pools, each with its share of the images, as they are made and with version 1.
NEW = {several: 4, long_ones: 3, small: 2, empty: 1, full: 1, tall: 4}
OLD = {several: 3, small: 1, full: 1}
POOLS = [*((pool, VERSION, share) for pool, share in NEW.items()), *((pool, 1, share) for pool, share in OLD.items())]


def make_pool(ztxg, pool, version):
    """The image of a pool of a version, and what it mounts."""
    with pool_file(IN_MEMORY) as path:
        file = pathlib.Path(path)
        file.write_bytes(bytes(LEAST))
        for lines in pool():
            ran = run([ztxg, "script", "--file", path, "-"], lines, SECONDS).in_lines()
            if ran.status != 0 or any(line.startswith("refused") for line in ran.out):
                fail(f"the pool `{pool.__name__}` isn't made: {ran}")
        image = Image(bytearray(file.read_bytes()))
    if version == 1:
        image.age()
    return bytes(image.content), mount(read_pool(image))


def fail(reason):
    raise Failed(f"hostile.py: {reason}")


# What is expected


class Refusal:
    """A refusal of an inspection or an import: its number, its name, and what is damaged."""

    def __init__(self, number, *words, later=()):
        self.text = " ".join([str(number), *words])
        # What a check of all finds after it.
        self.later = [f"damaged {damage.kind} {damage.address}" for damage in later]
        # What a check finds, if it isn't refused too; and how the end counts it.
        self.found = {6: "no pool", 7: " ".join(["damaged", *words[1:]])}.get(number)
        self.kind = " ".join(self.text.split()[:3])

    def shown(self):
        return Lines(1, [], [f"ztxg: refused {self.text}"])

    def checked(self, later=()):
        return Lines(1, [self.found, *later], []) if self.found else self.shown()


def outcome(image):
    """What an image mounts, or the refusal."""
    try:
        return mount(read_pool(image))
    except Damaged as damage:
        return Refusal(7, "Damaged", str(damage.kind), str(damage.address), later=damage.later)
    except NoPool:
        return Refusal(6, "NoPool")
    except BadGeometry:
        return Refusal(8, "BadGeometry")


def lost_labels(image):
    """What a check of all prints of the labels that have no valid config, if another one has one."""
    lost = []
    for n, (label, config) in enumerate(zip(label_places(image.size), image.configs())):
        if not config:
            lost.append(f"label {n} config none {reason(image.block(label + CONFIG_AT))}")
    return lost if any(image.configs()) else []


def reason(block):
    """Why a block is no config of a device."""
    size = number_at(block, 64 + 8)
    if read_config(block, size):
        return f"size {size}"
    return "check" if any(block) else "zeros"


class Expected:
    """What an inspection and an import make of an image."""

    def __init__(self, image):
        self.image, self.mount = image, outcome(image)
        self.is_whole = not isinstance(self.mount, Refusal)

    def check(self):
        one = self.mount
        if not self.is_whole:
            return one.checked()
        return Lines(0, [f"clean group {one.uberblock.group} records {one.records}"], [])

    def check_all(self):
        found = self.check() if self.is_whole else self.mount.checked(self.mount.later)
        return found if found.errors else found._replace(out=[*found.out, *lost_labels(self.image)])

    def show(self):
        return Lines(0, show_lines(self.mount), []) if self.is_whole else self.mount.shown()

    def import_answer(self):
        one = self.mount
        return f"refused {one.text}" if isinstance(one, Refusal) else import_line(one)

    def script(self):
        """The lines of a script that imports the pool, each with its answer."""
        lines = {f"import {DIRTY_MAX}": self.import_answer()}
        if self.import_answer().startswith("synced"):
            name, objects = self.mount.name, self.mount.objects
            lines.update({"name": f"name {name.decode()}", "digest": f"digest {digest(name, objects)}"})
            for number in sorted({*objects, 0, 1, 7}):
                answer = f"length {len(objects[number])}" if number in objects else "refused 9 NoObject"
                lines[f"length {number}"] = answer
        return lines

    def kinds(self):
        """How the image is counted."""
        answer = self.import_answer()
        if not self.is_whole:
            return [self.mount.kind]
        if answer.startswith("synced"):
            return ["clean", "clean, with records"] if self.mount.records else ["clean"]
        return [f"clean, but {answer}"]

    def after(self):
        """What is left of the pool by an import: its group, import, guid, log, name and objects."""
        one = self.mount
        return one.uberblock.group + 4, one.uberblock.import_number + 1, one.uberblock.guid, 0, one.name, one.objects

    def left(self):
        one = self.mount
        return one.uberblock.group, one.uberblock.import_number, one.uberblock.guid, one.records, one.name, one.objects


class Bench:
    """A file in which images are judged."""

    def __init__(self, ztxg, path):
        self.ztxg, self.path, self.file, self.counts = ztxg, path, pathlib.Path(path), collections.Counter()

    def differs(self, wanted, *words, script=()):
        """How a command differs from what is wanted, or None."""
        found = run([self.ztxg, "-q", *words], script, SECONDS).in_lines()
        return None if found == wanted else f"{words[0]}: wanted {wanted}, found {found}"

    def look(self, expected):
        """How a check, a check of all or a show differs, or None."""
        return (
            self.differs(expected.check(), "check", self.path)
            or self.differs(expected.check_all(), "check", "--all", self.path)
            or self.differs(expected.show(), "show", self.path)
        )

    def judge(self, image):
        """How a command differs on an image, or None."""
        self.file.write_bytes(image.content)
        expected = Expected(image)
        self.counts.update(expected.kinds())
        difference = self.look(expected)
        if difference or self.file.read_bytes() != image.content:
            return difference or "check or show wrote to the file"
        lines = expected.script()
        answers = Lines(0, list(lines.values()), [])
        difference = self.differs(answers, "script", "--file", self.path, "-", script=lines)
        left = self.file.read_bytes()
        if difference or not expected.import_answer().startswith("synced"):
            return difference or (None if left == image.content else "a refused import wrote to the file")
        left = Image(bytearray(left))
        return self.judge_left(expected, Expected(left), left.configs())

    def judge_left(self, before, after, configs):
        """How the pool that an import left differs, or None."""
        if not after.is_whole or after.left() != before.after():
            return f"the import left another pool: {after.check()}"
        if after.mount.uberblock.version != VERSION:
            return f"the import left version {after.mount.uberblock.version}"
        wanted = Config(after.mount.uberblock.guid, after.mount.uberblock.group, after.mount.name)
        if configs != [wanted] * 4:
            return f"the import left the configs {configs}"
        return self.look(after)


def judge_images(ztxg, bases, seed, images):
    """Judges images: their counts, and the first that differs."""
    shares = [share for *_, share in POOLS]
    with pool_file(IN_MEMORY) as path:
        bench = Bench(ztxg, path)
        for at in images:
            chance = random.Random(f"{seed}/{at}")
            at_pool = chance.choices(range(len(POOLS)), shares)[0]
            edits = Edits(chance, *bases[at_pool])
            for _ in range(chance.choice([1, 1, 1, 2, 3])):
                edits.edit()
            if chance.random() < 0.01:
                edits.resize()
            difference = bench.judge(edits.image)
            if difference:
                pool, version, _ = POOLS[at_pool]
                made = f"{pool.__name__}, version {version}, {', '.join(edits.names)}"
                return bench.counts, f"image {at} of seed {seed} ({made}): {difference}"
            bench.counts[f"version {POOLS[at_pool][1]}"] += 1
            bench.counts.update(f"edit: {name}" for name in edits.names)
    return bench.counts, None


def numbers_of(text):
    """The numbers of the images that `COUNT` or `FROM:TO` names."""
    first, _, end = text.rpartition(":")
    return range(int(first or 0), int(end))


def add_arguments(parser):
    add_program(parser)
    told = "how many images, or FROM:TO for those from one number to before another (1000)"
    parser.add_argument("images", metavar="COUNT", type=numbers_of, nargs="?", default="1000", help=told)
    parser.add_argument("seed", metavar="SEED", type=int, nargs="?", default=0, help="of the chance (0)")
    parser.add_argument("jobs", metavar="JOBS", type=int, nargs="?", default=1, help="processes at once (1)")


def main(ztxg, images, seed, jobs):
    bases = [make_pool(ztxg, pool, version) for pool, version, _ in POOLS]
    parts = [(ztxg, bases, seed, images[first::jobs]) for first in range(jobs)]
    counts = collections.Counter()
    with multiprocessing.Pool(jobs) as workers:
        for part, difference in workers.starmap(judge_images, parts):
            counts.update(part)
            if difference:
                fail(difference)
    print(f"{len(images)} images of seed {seed}: check, show and import agree")
    for kind, count in sorted(counts.items()):
        print(f"{count:8} {kind}")
