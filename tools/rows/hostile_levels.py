"""Worked images of a hostile writer with an object of two levels of indirect blocks, and what `check` has to print of
each.

Object 1 gets four bytes at the end of its first strip in group 9, and four more in group 10, which are in its second
strip. Each row makes one edit of the image after that, with every other check made right. Some rows are of version 1,
which knows one level.
"""

from tools.model import layout
from tools.model.layout import (
    BLOCK,
    DATA,
    DIRECTORY,
    INDIRECT,
    POINTERS,
    RECORD,
    ROOT,
    STRIP,
    TOP,
    VERSION,
    data_number,
    strip_number,
)
from tools.model.pool_bytes import NONE, Pointer, numbers, record, uberblock
from tools.rows import hostile_images
from tools.rows.hostile_images import GUID, LOG_AT, ROOT_AT, Tank

# The second group, and the places of its blocks behind those of the first one.
GROUP = 10
DATA_AT, STRIP_AT, TOP_AT, DIRECTORY_AT, LAST_ROOT_AT = range(ROOT_AT + BLOCK, ROOT_AT + 6 * BLOCK, BLOCK)

SOUND, LOGGED = f"clean group {GROUP} records 0", f"clean group {GROUP} records 1"
BAD_ENTRY = f"damaged 3 {DIRECTORY_AT}"


def script():
    """The lines by which a program makes it, after its create."""
    return [
        "import 1048576",
        f"lock 1 1 w 0 {layout.MAX_LENGTH}",
        f"begin 1 c:1 w:1:{STRIP - 4}:4",
        "commit 0 abcd",
        "sync",
        f"begin 1 w:1:{STRIP}:4",
        "commit 1 wxyz",
        "sync",
    ]


def of_a_strip(pool):
    """The pool of group 9 in place of that of `Tank`: object 1 has a strip, whose last record alone has a block."""
    pool.record, pool.data, pool.length = POINTERS - 1, bytes(RECORD - 4) + b"abcd", STRIP
    pool.indirect = lambda data: bytes(48 * (POINTERS - 1)) + data.bytes()
    return pool.write()


class Tall(Tank):
    """The pool after group 10 is synced. `first` is the pointer to the first strip. The fields behind it are those of
    the second strip, of the top, and of the entry."""

    def __init__(self, version=VERSION):
        super().__init__(version)
        of_a_strip(self)
        entry = hostile_images.DIRECTORY_AT + 64 + 64
        self.first = Pointer.at(self.content, entry + 16)
        self.second_data, self.second_record = b"wxyz", data_number(1, POINTERS)
        self.second, self.second_number = lambda data: data.bytes(), strip_number(1, 1)
        self.top, self.top_kind, self.top_number = lambda first, second: first.bytes() + second.bytes(), TOP, 1
        self.levels, self.whole_length, self.names = 2, STRIP + 4, lambda top, first, second: top
        self.write_second()

    def write_second(self):
        """Writes the tree of group 10, each block with its check, and its uberblock."""
        data = self.put_block(DATA, self.second_record, DATA_AT, self.second_data, GROUP)
        second = self.put_block(INDIRECT, self.second_number, STRIP_AT, self.second(data), GROUP)
        top = self.put_block(self.top_kind, self.top_number, TOP_AT, self.top(self.first, second), GROUP)
        entry = numbers(self.levels, self.whole_length) + self.names(top, self.first, second).bytes()
        directory = self.put_block(DIRECTORY, 0, DIRECTORY_AT, bytes(64) + entry, GROUP)
        root = self.put_block(ROOT, 0, LAST_ROOT_AT, directory.bytes(), GROUP)
        self.put_uberblock(uberblock(GROUP, GUID, root, 1, LOG_AT, version=self.version))
        return self


def tall(**fields):
    """The pool with other fields."""
    pool = Tall()
    vars(pool).update(fields)
    return pool.write_second()


def of_length(length, **fields):
    return lambda: tall(whole_length=length, **fields)


def naming(pointer):
    """The entry has another pointer, made of those to the top, the first strip and the second one."""
    return lambda: tall(names=pointer)


def with_top(payload):
    """The top has another payload, made of the pointers to both strips."""
    return lambda: tall(top=payload)


def with_second(payload):
    """The second strip has another payload, made of the pointer to its record."""
    return lambda: tall(second=payload)


def with_pointer(index, change=lambda second: second):
    """A top that has the pointer to the second strip, changed, at this index too."""

    def payload(first, second):
        content = (first.bytes() + second.bytes()).ljust(48 * POINTERS, b"\0")
        return content[: 48 * index] + change(second).bytes() + content[48 * index + 48 :]

    return payload


def without_address(pointer):
    return pointer._replace(address=0)


def logged(version, *op):
    """A log block with a record of this operation, over a pool of this version whose object has one level."""
    return lambda: Tank(version).log_blocks(record(10, 0, [op]))


def over_empty_strip(*op, **fields):
    """A log with a record of this operation, over an object whose second strip has no pointer. Its first strip has no
    block."""

    def top(first, second):
        return bytes(48) + second.bytes()

    return lambda: tall(second=lambda data: b"", top=top, **fields).log_blocks(record(11, 0, [op]))


# What `check` prints of the images.
ROWS = [
    ("an object of two levels", Tall, SOUND),
    ("an object of no level", lambda: tall(levels=0), BAD_ENTRY),
    ("an object of one level with more than a strip", lambda: tall(levels=1), BAD_ENTRY),
    ("an object of three levels", lambda: tall(levels=3), BAD_ENTRY),
    ("an object of two levels with the length of a strip", of_length(STRIP), BAD_ENTRY),
    ("an object of two levels with no length", of_length(0), BAD_ENTRY),
    ("an object of the greatest length", lambda: tall(whole_length=layout.MAX_LENGTH), SOUND),
    ("the same with a byte more", lambda: tall(whole_length=layout.MAX_LENGTH + 1), BAD_ENTRY),
    ("an entry without a pointer", naming(lambda top, first, second: NONE), SOUND),
    ("an entry whose pointer has address 0", naming(lambda top, *_: without_address(top)), BAD_ENTRY),
    (
        "an entry whose pointer has the address 4,222,977",
        naming(lambda top, *_: top._replace(address=TOP_AT + 1)),
        "damaged 7 4222977",
    ),
    ("an entry whose pointer has birth 11", naming(lambda top, *_: top._replace(birth=11)), "damaged 7 4222976"),
    ("an entry that names the first strip", naming(lambda top, first, second: first), "damaged 7 4202496"),
    ("an entry that names the second strip", naming(lambda top, first, second: second), "damaged 7 4218880"),
    ("a top with the number of another object", lambda: tall(top_number=2), "damaged 7 4222976"),
    ("a top of the kind of an indirect block", lambda: tall(top_kind=INDIRECT), "damaged 7 4222976"),
    ("a top without a pointer", with_top(lambda first, second: b""), SOUND),
    ("a top without its first strip", with_top(lambda first, second: bytes(48) + second.bytes()), SOUND),
    (
        "a top whose pointers are swapped",
        with_top(lambda first, second: second.bytes() + first.bytes()),
        "damaged 4 4218880",
    ),
    ("a top with a pointer to a third strip", with_top(with_pointer(2)), "damaged 7 4222976"),
    ("a top with a pointer to a last strip", with_top(with_pointer(83)), "damaged 7 4222976"),
    (
        "the same within the length",
        lambda: tall(top=with_pointer(83), whole_length=layout.MAX_LENGTH),
        "damaged 4 4218880",
    ),
    ("a top whose second pointer has address 0", with_top(with_pointer(1, without_address)), "damaged 7 4222976"),
    (
        "a top whose second pointer has the address 4,218,881",
        with_top(with_pointer(1, lambda second: second._replace(address=STRIP_AT + 1))),
        "damaged 4 4218881",
    ),
    ("a second strip with the number of the first one", lambda: tall(second_number=1), "damaged 4 4218880"),
    (
        "a second strip with the number of another object's",
        lambda: tall(second_number=strip_number(2, 1)),
        "damaged 4 4218880",
    ),
    ("a second strip without a pointer", with_second(lambda data: b""), SOUND),
    ("a second strip with a pointer past the length", with_second(lambda data: data.bytes() * 2), "damaged 4 4218880"),
    (
        "the same within the length",
        of_length(STRIP + RECORD + 1, second=lambda data: data.bytes() * 2),
        "damaged 5 4214784",
    ),
    ("a length within the bytes of the last record", of_length(STRIP + 3), "damaged 5 4214784"),
    ("a byte past the length in the second strip", lambda: tall(second_data=b"wxyz\1"), "damaged 5 4214784"),
    ("a record with the number of one of the first strip", lambda: tall(second_record=84), "damaged 5 4214784"),
    ("an object of one level that names a top", of_length(STRIP, levels=1), "damaged 4 4222976"),
    (
        "an object of one level that names its strip",
        of_length(STRIP, levels=1, names=lambda top, first, second: first),
        SOUND,
    ),
    # An import writes the top, the directory and the root, and in the second row a record and its indirect block, too.
    # In the third one the strip is cut, so the directory and the root alone are written.
    ("a longer length over a strip without a pointer", over_empty_strip("l", 1, 3 * STRIP, b""), LOGGED),
    ("a write beside a strip without a pointer", over_empty_strip("w", 1, 0, b"efgh"), LOGGED),
    (
        "a cut of a strip without a pointer",
        over_empty_strip("l", 1, STRIP + RECORD, b"", whole_length=2 * STRIP),
        LOGGED,
    ),
    ("an object of two levels in version 1", lambda: Tall(version=1), BAD_ENTRY),
    ("the same in the first label alone", lambda: Tall().versions(1, 2, group=GROUP), BAD_ENTRY),
    ("an object of a strip in version 1", lambda: of_a_strip(Tank(version=1)), "clean group 9 records 0"),
    ("a length of a strip in a log of version 1", logged(1, "l", 1, STRIP, b""), "clean group 9 records 1"),
    ("the same with a byte more", logged(1, "l", 1, STRIP + 1, b""), "clean group 9 records 0"),
    ("a write to a strip's end in a log of version 1", logged(1, "w", 1, STRIP - 1, b"x"), "clean group 9 records 1"),
    ("a write past a strip's end in a log of version 1", logged(1, "w", 1, STRIP, b"x"), "clean group 9 records 0"),
    ("a length of more than a strip in a log", logged(2, "l", 1, STRIP + 1, b""), "clean group 9 records 1"),
    ("a write past a strip's end in a log", logged(2, "w", 1, STRIP, b"x"), "clean group 9 records 1"),
]
