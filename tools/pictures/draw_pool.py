"""Draws the map of a pool in a file: which of its bytes are labels, free, data, pointers and log.

The file is read by `tools/model/pool_image.py`, with nothing of the program: the active uberblock, the walk of its tree
and the log chain. A shared lock of the file keeps a program from changing it meanwhile. A damaged block is drawn as
damaged, and what lies below it as free.

The device is drawn from left to right, row by row. A square is one block, or as many as make at most 4,096 squares.
"""

import collections
import contextlib
import fcntl
import itertools
import mmap
import pathlib

from tools import Failed
from tools.harness.svg import INK, Picture, short, shown, write_file
from tools.model.layout import (
    AREA,
    BLOCK,
    DATA,
    DIRECTORY,
    INDIRECT,
    LABEL,
    LOG,
    MIB,
    ROOT,
    TOP,
    block_count,
    is_block_address,
    is_geometry,
    label_places,
)
from tools.model.pool_image import Damaged, Image, NoPool, Walk, read_chain

# What a place of the device is, besides the kinds of blocks of a pool.
FREE, LABELLED, UNWRITTEN, DAMAGED = 0, 64, 65, 66

# How each is drawn: its name in the legend, its ground, and the path of its pattern with the colour of that.
LOOKS = {
    LABELLED: ("labels", "#262626", None),
    UNWRITTEN: ("boot area, never written", "#ffffff", ("M0 6L6 0", "#b4b4b4")),
    FREE: ("free", "#e6e6e6", None),
    DATA: ("data", "#86b7ea", None),
    INDIRECT: ("indirect pointers", "#2f6db5", None),
    TOP: ("top pointers", "#2f6db5", ("M0 3H6", "#ffffff")),
    DIRECTORY: ("directories", "#e39a3b", ("M3 0V6", "#5a3500")),
    ROOT: ("root", "#a3271a", ("M3 0V6M0 3H6", "#ffffff")),
    LOG: ("log", "#bfe3c0", ("M0 0L6 6", "#14632b")),
    DAMAGED: ("damaged", "#ffffff", ("M0 0L6 6M0 6L6 0", "#c00000")),
}


class Blocks(Walk):
    """The walk of a tree that keeps what it found before and after a damage, and no bytes of objects."""

    def __init__(self, image, active):
        with contextlib.suppress(Damaged):
            super().__init__(image, active)

    def walk_object(self, listed):
        super().walk_object(listed)
        self.objects[listed.number] = None


class Map:
    """What each 4,096 bytes of a pool's device are."""

    def __init__(self, image):
        if not is_geometry(image.size):
            raise Failed(f"{image.size} bytes are no size of a pool")
        try:
            self.active = image.active()
            self.name = image.name(self.active).decode()
        except NoPool:
            raise Failed("there is no pool") from None
        self.size, self.blocks = image.size, block_count(image.size)
        walk = Blocks(image, self.active)
        self.objects = len(walk.objects)
        self.kinds = bytearray([UNWRITTEN]) * (AREA // BLOCK) + bytearray(self.blocks)
        self.kinds += bytearray([LABELLED]) * (2 * LABEL // BLOCK)
        for place in label_places(image.size):
            self.put(range(place, place + LABEL, BLOCK), LABELLED)
        for node in itertools.chain(walk.nodes, *(piece.nodes for piece in read_chain(image, self.active))):
            self.put([node.address], node.kind)
        self.put([one.address for one in walk.damages if is_block_address(image.size, one.address)], DAMAGED)

    def put(self, places, kind):
        for place in places:
            self.kinds[place // BLOCK] = kind

    def counts(self):
        """How many there are of each, in the order of the legend."""
        counts = collections.Counter(self.kinds)
        return {kind: counts[kind] for kind in LOOKS if counts[kind] or kind in (FREE, DATA, INDIRECT, LOG)}

    def used(self):
        return self.blocks - self.kinds.count(FREE)


# The picture

WIDTH, LEFT, TOP_OF, CELL, COLUMNS, MOST = 1_004, 78, 92, 7, 128, 4_096
LEGEND_AT, ROWS_OF_LEGEND = (0, 300, 622), 4
# A kind counts for this much of a square at least, so that one block of 64 is seen.
LEAST = 1 / 3


def group_of(count):
    """How many blocks a square is: a power of two, so that there are at most `MOST` squares."""
    group = 1
    while count > MOST * group:
        group *= 2
    return group


def size_text(size):
    """A size as people read it, if it has a short one."""
    for unit, name in ((2**30, "GiB"), (MIB, "MiB"), (2**10, "KiB")):
        if size % unit == 0:
            return f"{shown(size // unit)} {name}"
    return f"{shown(size)} bytes"


def parts(cell):
    """The parts of a square that has several kinds: each kind with its upper end and its height."""
    counts, top = collections.Counter(cell), 0
    shares = {kind: max(counts[kind] / len(cell), LEAST) for kind in LOOKS if counts[kind]}
    for kind, share in shares.items():
        height = share / sum(shares.values())
        yield kind, top, height
        top += height


def pieces(kinds, group):
    """The squares of one kind that lie side by side in a row, and the parts of a square that has several: the column,
    the upper end, the width and the height in squares, and the kind."""
    cells = [kinds[at : at + group] for at in range(0, len(kinds), group)]
    whole = [cell[0] if cell.count(cell[0]) == len(cell) else None for cell in cells]
    for kind, run in itertools.groupby(enumerate(whole), key=lambda one: one[1]):
        columns = [column for column, _ in run]
        if kind is not None:
            yield columns[0], 0, len(columns), 1, kind
            continue
        for column in columns:
            yield from ((column, top, 1, height, part) for part, top, height in parts(cells[column]))


def paint_of(kind):
    return f"url(#kind{kind})" if LOOKS[kind][2] else LOOKS[kind][1]


def add_patterns(picture):
    """Those of the looks that have one."""
    for kind, (_, ground, lines) in LOOKS.items():
        if lines:
            path, colour = lines
            content = f'<rect width="6" height="6" fill="{ground}"/>'
            content += f'<path d="{path}" stroke="{colour}" stroke-width="1.3"/>'
            how = {"id": f"kind{kind}", "width": 6, "height": 6, "patternUnits": "userSpaceOnUse"}
            picture.add("pattern", content, **how)


def draw_grid(picture, found, group):
    """The squares. Returns the y of their lower end."""
    row_size, paths = COLUMNS * group, collections.defaultdict(list)
    rows = [found.kinds[at : at + row_size] for at in range(0, len(found.kinds), row_size)]
    for row, kinds in enumerate(rows):
        for column, top, width, height, kind in pieces(kinds, group):
            x, y, across = LEFT + CELL * column, TOP_OF + CELL * (row + top), CELL * width
            paths[kind].append(f"M{short(x)} {short(y)}h{across}v{short(CELL * height)}h-{across}z")
    for kind in LOOKS:
        if paths[kind]:
            picture.add("path", d="".join(paths[kind]), fill=paint_of(kind))
    bottom, right = TOP_OF + CELL * len(rows), LEFT + CELL * COLUMNS
    lines = [f"M{LEFT} {TOP_OF + CELL * row}H{right}" for row in range(len(rows) + 1)]
    lines += [f"M{LEFT + CELL * column} {TOP_OF}V{bottom}" for column in range(COLUMNS + 1)]
    picture.add("path", d="".join(lines), stroke="#ffffff", stroke_width=1, fill="none")
    for row in range(0, len(rows), 4 if len(rows) > 8 else 1):
        place = size_text(row * row_size * BLOCK) if row else "0"
        picture.write(LEFT - 8, TOP_OF + CELL * row + 7, place, 10, text_anchor="end")
    return bottom


def draw_legend(picture, found, y):
    """Each kind with how many blocks it has, and how many bytes."""
    for number, (kind, count) in enumerate(found.counts().items()):
        column, row = divmod(number, ROWS_OF_LEGEND)
        x, line = LEFT + LEGEND_AT[column], y + 22 * row
        picture.box(x, line - 11, 14, 14, fill=paint_of(kind), stroke=INK, stroke_width=0.6)
        name = LOOKS[kind][0]
        is_block = kind not in (LABELLED, UNWRITTEN)
        amount = f"{shown(count)} block{'s' * (count != 1)}, " if is_block else "4, " if kind == LABELLED else ""
        picture.write(x + 22, line, f"{name}: {amount}{shown(count * BLOCK)} bytes", 11.5)


def drawn(found):
    """The picture of a map."""
    group = group_of(len(found.kinds))
    kinds = found.counts()
    rows = -(-len(found.kinds) // (COLUMNS * group))
    height = TOP_OF + CELL * rows + 34 + 22 * min(len(kinds), ROWS_OF_LEGEND)
    title = f"Pool {found.name}, {size_text(found.size)}"
    told = ", ".join(f"{LOOKS[kind][0]} {count * BLOCK} bytes" for kind, count in kinds.items())
    picture = Picture(WIDTH, height, title, told)
    add_patterns(picture)
    picture.write(LEFT, 34, title, 19, font_weight="bold")
    share = f"{shown(found.used())} of {shown(found.blocks)} blocks used ({100 * found.used() / found.blocks:.1f} %)"
    objects = f"{shown(found.objects)} synced object{'s' * (found.objects != 1)}"
    picture.write(LEFT, 55, f"{share}, {objects}, group {shown(found.active.group)}, guid {found.active.guid}", 12)
    square = f"{group} blocks of {shown(BLOCK)} bytes" if group > 1 else f"a block of {shown(BLOCK)} bytes"
    split = " One with several kinds is divided, and shows a rare one larger." if group > 1 else ""
    picture.write(LEFT, 74, f"A square is {square}. Read them row by row.{split}", 12)
    draw_legend(picture, found, draw_grid(picture, found, group) + 26)
    return picture.text()


def read_map(path):
    """The map of the pool in a file."""
    try:
        with open(path, "rb") as file:
            fcntl.flock(file, fcntl.LOCK_SH | fcntl.LOCK_NB)
            with mmap.mmap(file.fileno(), 0, access=mmap.ACCESS_READ) as content:
                return Map(Image(content))
    except BlockingIOError:
        raise Failed(f"{path} is in use") from None
    except (OSError, ValueError) as error:
        raise Failed(f"{path}: {error}", status=2) from None
    except Failed as failed:
        raise Failed(f"{path}: {failed.reason}", failed.status) from None


def add_arguments(parser):
    parser.add_argument("file", metavar="FILE", type=pathlib.Path, help="a file with a pool")
    parser.add_argument("out", metavar="OUT.svg", type=pathlib.Path, help="the picture")


def main(file, out):
    found = read_map(file)
    write_file(out, drawn(found))
    for kind, count in found.counts().items():
        print(f"{LOOKS[kind][0]}: {count * BLOCK} bytes")
