"""The fixed numbers of a pool, and where its parts lie (docs/FORMATS.md, 1 to 7)."""

MIB = 2**20

# Labels, and the parts of one.
LABEL, CONFIG_AT, ARRAY_AT = 256 * 2**10, 16_384, 131_072
SLOT, SLOTS = 1_024, 128
# The first byte of the blocks: there the boot area ends.
AREA = 4 * MIB

BLOCK, PAYLOAD = 4_096, 4_032
CONFIG, ROOT, DIRECTORY, INDIRECT, DATA, LOG, TOP = range(1, 8)

# The tree: pointers of a root, a top or an indirect block, entries of a directory, objects of a pool, bytes of a record
# and of a strip, which is the records of one indirect block.
POINTERS, ENTRIES, OBJECTS = 84, 63, 5_292
RECORD = PAYLOAD
STRIP = POINTERS * RECORD
# The greatest length of an object, and the top of each range. An object of one level of indirect blocks has at most a
# strip, and one of two levels at most this. A test sets it, so it is read as `layout.MAX_LENGTH` where it is used.
MAX_LENGTH = POINTERS * STRIP
# The greatest count of a word `@COUNT:C` of a script.
MAX_COPIES = STRIP
# The number that stands for the pool's name, as an object's does for the object.
NAMED = OBJECTS

# The greatest group, import number and log number.
LAST = 2**60
# A log block has so many bytes of records, and one record has at most so many. A log write needs so many available
# blocks.
LOG_ROOM, LOG_RECORD_MAX, LOG_AVAILABLE = 4_008, 65_536, 17
# The version of each uberblock that is written. Those of version 1 are known too: their trees have one level of
# indirect blocks, and their logs no long records.
VERSION = 2
# What a block is charged, and the greatest limit of what is charged.
CHARGE, DIRTY_MAX = BLOCK, 2**40


def is_geometry(size):
    return 6 * MIB <= size <= 2**30 and size % LABEL == 0


def block_count(size):
    return (size - 2 * LABEL - AREA) // BLOCK


def is_block_address(size, address):
    return AREA <= address < AREA + BLOCK * block_count(size) and (address - AREA) % BLOCK == 0


def label_places(size):
    return [0, LABEL, size - 2 * LABEL, size - LABEL]


def slot_places(size, group):
    """The places of a group's uberblock in the four labels."""
    return [place + ARRAY_AT + SLOT * (group % SLOTS) for place in label_places(size)]


# The tree by its numbers


def levels_of(length):
    """How many levels of indirect blocks an object of this length has."""
    return 1 if length <= STRIP else 2


def strip_number(number, strip):
    """The number of a strip of an object, which its indirect block has."""
    return OBJECTS * strip + number


def data_number(number, record):
    """The number of the data block of an object's record."""
    strip, index = divmod(record, POINTERS)
    return POINTERS * strip_number(number, strip) + index


def record_of(data):
    """The object and the record of the data block with this number."""
    (strip, number), index = divmod(data // POINTERS, OBJECTS), data % POINTERS
    return number, POINTERS * strip + index


def count_touched(size, place, count):
    """How many pieces of this size a range of bytes touches."""
    return (place + count - 1) // size - place // size + 1
