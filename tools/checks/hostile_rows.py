"""Judges worked images of a hostile writer by `check`, `show` and an import.

The images are those of `tools/rows/hostile_images.py`, `hostile_logs.py`, `hostile_levels.py` and `hostile_trees.py`,
each with what `check` has to print, and the name. Those with several damages have what `check --all` has to print.
Those of `full_images.py` are whole, and have what an import says that finds no room.

`show` and an import have to agree: they mount the same group, name and records, or are refused with the same kind and
address. What else they mount is worked out by `tools/model/pool_image.py`: the used blocks, the objects with their
lengths, the lowest free block for the log, and how many blocks are free then. A refused import leaves the file as it
was. Another one leaves the name in the configs of all four labels, and an uberblock of the version that is written. The
file before the edits is also made without the program, byte for byte.

The first difference ends it with status 1. The end prints how many images were judged.
"""

import pathlib

from tools import Failed
from tools.harness.pool_files import IN_MEMORY, create, pool_file
from tools.harness.program import add_program, run
from tools.model.layout import VERSION
from tools.model.pool_bytes import Config
from tools.model.pool_image import Image, free_places, mount, read_pool, show_lines
from tools.rows import full_images, hostile_images, hostile_levels, hostile_logs, hostile_trees
from tools.rows.hostile_images import GUID, SIZE, Tank
from tools.rows.hostile_levels import Tall

SECONDS = 60


def fail(reason):
    raise Failed(f"hostile_rows.py: {reason}")


def refusal(line):
    """How a script and `show` print what `check` finds, or None if it is clean."""
    if line == "no pool":
        return "refused 6 NoPool"
    return line.replace("damaged", "refused 7 Damaged") if line.startswith("damaged") else None


def all_rows():
    return hostile_images.ROWS + hostile_logs.ROWS + hostile_levels.ROWS + hostile_trees.ROWS


def make_pool(ztxg, file, script, synced, wanted):
    """The pool as the program makes it, which has to be the same bytes."""
    create(ztxg, file, SIZE)
    status, lines, _ = run([ztxg, "script", "--file", file, "-"], script, SECONDS).in_lines()
    if status or lines[-1:] != [f"synced {synced}"]:
        fail(f"the pool isn't made: {lines}")
    if pathlib.Path(file).read_bytes() != bytes(wanted.content):
        fail("the program makes another pool")


def judge_row(ztxg, file, image, line, name="tank", no_room=None):
    """Judges an image in a file by three commands, the import last. That is refused so if it finds no room."""
    pathlib.Path(file).write_bytes(image.content)
    refused = refusal(line)
    wanted = (int(refused is not None), [line], [])
    if (found := run([ztxg, "check", file], seconds=SECONDS).in_lines()) != wanted:
        return f"check: {found}"
    if refused:
        return judge_refused(ztxg, file, image, refused)
    _, _, group, _, records = line.split()
    return judge_clean(ztxg, file, image, int(group), records, name, no_room)


def judge_all(ztxg, file, image, lines):
    """How a check of all damages differs, or a command that finds the first one, or None."""
    pathlib.Path(file).write_bytes(image.content)
    if (found := run([ztxg, "check", file, "--all"], seconds=SECONDS).in_lines()) != (1, lines, []):
        return f"check --all: {found}"
    return judge_row(ztxg, file, image, lines[0])


def judge_refused(ztxg, file, image, refused):
    """How `show` and an import differ on an image that they refuse, or None."""
    if (found := run([ztxg, "-q", "show", file], seconds=SECONDS).in_lines()) != (1, [], [f"ztxg: {refused}"]):
        return f"show: {found}"
    return judge_refused_import(ztxg, file, image, refused)


def judge_refused_import(ztxg, file, image, refused):
    if (found := import_file(ztxg, file, [])) != (0, [refused], []):
        return f"import: {found}"
    return None if pathlib.Path(file).read_bytes() == bytes(image.content) else "import: the file"


def judge_clean(ztxg, file, image, group, records, name, no_room):
    """How `show` and an import differ on an image that they mount, or what the import leaves, or None."""
    before = mount(read_pool(image))
    shown = [f"name {name}", f"group {group}", f"records {records}"]
    found = run([ztxg, "show", file], seconds=SECONDS).in_lines()
    if found != (0, show_lines(before), []) or [*found.out[:1], *found.out[2:6:3]] != shown:
        return f"show: {found}"
    if no_room:
        return judge_refused_import(ztxg, file, image, no_room)
    found = import_file(ztxg, file, ["name", "status"])
    left = Image(bytearray(pathlib.Path(file).read_bytes()))
    after = mount(read_pool(left))
    free = after.blocks - len(after.nodes) - 1
    status = f"synced {group + 4} syncing - middle - open {group + 5} dirty 0 free {free} available {free}"
    answers = [f"synced {group + 4} open {group + 5} records {records}", f"name {name}", status]
    if found != (0, answers, []) or after.objects != before.objects:
        return f"import: {found}"
    return difference_left(left, before, name)


def difference_left(left, before, name):
    """What an import leaves otherwise than it has to, or None. The first free block behind those that the records
    change is the log's."""
    read, group = before.uberblock, before.uberblock.group + 4
    if left.configs() != [Config(GUID, group, name.encode())] * 4:
        return "import: the configs"
    active, log = left.active(), free_places(before)[before.needed - 1]
    found = active.group, active.version, active.import_number, active.log_address
    return None if found == (group, VERSION, read.import_number + 1, log) else f"import: {active}"


def import_file(ztxg, file, lines):
    """What a script prints that imports the pool in a file, and goes on with these lines."""
    return run([ztxg, "script", "--file", file, "-"], ["import 1048576", *lines], SECONDS).in_lines()


def judged(ztxg, file):
    """Each image: its title, what is wanted of it, and how it differs, or None."""
    for title, make, line, *names in all_rows():
        yield title, [line, *names], judge_row(ztxg, file, make(), line, *names)
    for title, make, lines in hostile_trees.SEVERAL:
        yield title, lines, judge_all(ztxg, file, make(), lines)
    for title, make, line, no_room in full_images.ROWS:
        yield title, [line, no_room], judge_row(ztxg, file, make(), line, no_room=no_room)


def add_arguments(parser):
    add_program(parser)


def main(ztxg):
    images = 0
    with pool_file(IN_MEMORY) as file:
        make_pool(ztxg, file, hostile_images.script(), 9, Tank())
        make_pool(ztxg, file, hostile_levels.script(), 10, Tall())
        for title, wanted, difference in judged(ztxg, file):
            images += 1
            if difference:
                fail(f"{title}: wanted {wanted}, found {difference}")
    print(f"{images} images: check, show and import agree")
