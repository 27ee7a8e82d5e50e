"""Worked images of a hostile writer, with what `check` has to print of each.

A pool gets two transactions in two groups at once; the older one is synced. Each row makes one edit of its image, with
every other check made right. Those of a log with long records are in `hostile_logs.py`, and those of an object with two
levels of indirect blocks in `hostile_levels.py`.
"""

from tools.model import layout
from tools.model.layout import (
    AREA,
    BLOCK,
    CONFIG_AT,
    DATA,
    DIRECTORY,
    INDIRECT,
    MIB,
    NAMED,
    ROOT,
    SLOT,
    STRIP,
    VERSION,
    data_number,
    label_places,
    slot_places,
)
from tools.model.pool_bytes import (
    Pointer,
    Uberblock,
    check_of,
    config,
    log_block,
    numbers,
    record,
    seal,
    sha,
    uberblock,
)
from tools.model.pool_image import Image

SIZE, GUID, GROUP = 8 * MIB, 77, 9
LOG_AT, DATA_AT, INDIRECT_AT, DIRECTORY_AT, ROOT_AT = range(AREA, AREA + 5 * BLOCK, BLOCK)
# Where the blocks of a longer log lie: the first one before the tree, the others behind it.
CHAIN_AT = [LOG_AT, *range(ROOT_AT + BLOCK, ROOT_AT + 20 * BLOCK, BLOCK)]


def script():
    """The lines by which a program makes it, after its create."""
    return [
        "import 1048576",
        f"lock 1 1 w 0 {layout.MAX_LENGTH}",
        "begin 1 c:1",
        "commit 0",
        "unlock 1 0",
        "lock 1 1 w 0 4",
        "begin 1 w:1:0:4",
        "close",
        "lock 2 1 w 100 104",
        "begin 2 w:1:100:4",
        "commit 2 wxyz",
        "commit 1 abcd",
        "quiesce",
        "start",
        "finish",
    ]


class Tank(Image):
    """The pool after group 9 is synced. Object 1 has the bytes `abcd`, in one block of each kind. Its uberblocks have
    this version."""

    def __init__(self, version=VERSION):
        super().__init__(bytearray(SIZE))
        self.put_configs(config(GUID, 8, SIZE, b"tank"))
        self.put_uberblock(uberblock(4, GUID, version=version))
        self.put_uberblock(uberblock(8, GUID, import_number=1, log_address=LOG_AT, version=version))
        self.version = version
        self.record = 0
        self.data = b"abcd"
        self.indirect = lambda data: data.bytes()
        self.present, self.length = 1, 4
        self.entry = lambda indirect: indirect
        self.entry_2 = b""
        self.root = lambda directory: directory.bytes()
        self.write()

    def put_block(self, kind, number, address, payload, group=GROUP):
        block = seal(kind, GUID, group, number, payload)
        self.put(address, block)
        return Pointer(address, group, check_of(block))

    def write(self, root=None):
        """Writes the tree, each block with its check, and the uberblock of group 9 with the pointer to its root."""
        data = self.put_block(DATA, data_number(1, self.record), DATA_AT, self.data)
        indirect = self.put_block(INDIRECT, 1, INDIRECT_AT, self.indirect(data))
        entry = numbers(self.present, self.length) + self.entry(indirect).bytes()
        directory = self.put_block(DIRECTORY, 0, DIRECTORY_AT, bytes(64) + entry + self.entry_2)
        written = self.put_block(ROOT, 0, ROOT_AT, self.root(directory))
        self.put_uberblock(uberblock(GROUP, GUID, root or written, 1, LOG_AT, version=self.version))
        return self

    def log(self, group=10, length=None, used=None, op=("c", 2, 0, b"")):
        """The first block of the log, which names itself as the next one."""
        self.put(LOG_AT, log_block(GUID, 10, 0, 1, LOG_AT, record(group, 0, [op], length), used))
        return self

    def log_blocks(self, *contents, odd=None, **fields):
        """A log whose blocks have these bytes of records. The block `odd` has other fields."""
        for number, content in enumerate(contents):
            said = {"guid": GUID, "group": 10, "number": number, "chain": 1, "follower": CHAIN_AT[number + 1]}
            odd_ones = fields if number == odd else {}
            self.put(CHAIN_AT[number], log_block(**{**said, "content": content, **odd_ones}))
        return self

    def versions(self, *versions, group=GROUP):
        """The versions of the active uberblock in labels 0 to 3, the last one in all that follow."""
        for label, place in enumerate(slot_places(SIZE, group)):
            read = Uberblock.at(self.slot(place))
            self.put(place, read._replace(version=versions[min(label, len(versions) - 1)]).bytes())
        return self


def edited(**fields):
    tank = Tank()
    vars(tank).update(fields)
    return tank.write()


def without_root():
    root = Pointer.at(Tank().content, slot_places(SIZE, GROUP)[0] + 40)
    return Tank().write(root._replace(address=0))


def torn(address):
    """The block at this address has other bytes."""
    tank = Tank()
    tank.put(address, bytes([0xAA]) * BLOCK)
    return tank


def without_uberblocks():
    tank = Tank()
    for group in (4, 8, 9):
        for place in slot_places(SIZE, group):
            tank.put(place, bytes([0xAA]) * SLOT)
    return tank


def odd_slot(place, byte, is_sealed=True):
    """The active uberblock has another byte in each label, with or without its check."""

    def make():
        tank = Tank()
        for at in slot_places(SIZE, GROUP):
            slot = bytearray(tank.slot(at))
            slot[place] = byte
            tank.put(at, bytes(slot[:992]) + sha(slot[:992]) if is_sealed else slot)
        return tank

    return make


def even_configs(group):
    """The configs of labels 0 and 2 have this group and another name."""
    tank = Tank()
    for place in label_places(SIZE)[::2]:
        tank.put(place + CONFIG_AT, config(GUID, group, SIZE, b"pond"))
    return tank


def naming(content):
    """An operation of a record that gives the pool this name."""
    return ("n", NAMED, 0, content)


# A pointer to nothing that isn't all zeros.
ODD_NONE = Pointer(0, GROUP, bytes(32)).bytes()

# Bytes of an uberblock with which it is none: of the magic, the version, the group, the import number, the log number
# and the zeros. One of group 10 doesn't count in slot 9.
ODD_BYTES = [
    *[(0, 0x0D), (8, 3), (15, 1), (16, 3), (16, 10), (23, 0x11)],
    *[(95, 0x11), (111, 0x11), (112, 1), (991, 1)],
]

# What is edited, what `check` prints, and the name if it isn't `tank`.
ROWS = [
    ("nothing", Tank, "clean group 9 records 0"),
    (
        "the root's pointer 0 names the root itself",
        lambda: edited(root=lambda directory: directory._replace(address=ROOT_AT).bytes()),
        "damaged 3 4210688",
    ),
    (
        "the root's pointer 2 has address 0 and birth 9",
        lambda: edited(root=lambda directory: directory.bytes() + bytes(48) + ODD_NONE),
        "damaged 2 4210688",
    ),
    (
        "the root's pointer 1 names directory 0",
        lambda: edited(root=lambda directory: bytes(48) + directory.bytes()),
        "damaged 3 4206592",
    ),
    ("the root is torn", lambda: torn(ROOT_AT), "damaged 2 4210688"),
    ("the directory is torn", lambda: torn(DIRECTORY_AT), "damaged 3 4206592"),
    ("the indirect block is torn", lambda: torn(INDIRECT_AT), "damaged 4 4202496"),
    ("the record is torn", lambda: torn(DATA_AT), "damaged 5 4198400"),
    ("entry 1 has two levels and four bytes", lambda: edited(present=2), "damaged 3 4206592"),
    ("entry 2 is absent and has a length", lambda: edited(entry_2=numbers(0, 1)), "damaged 3 4206592"),
    (
        "entry 1 has a byte more than a strip, and byte 4 of record 0 is 1",
        lambda: edited(length=STRIP + 1, data=b"abcd\1"),
        "damaged 3 4206592",
    ),
    (
        "entry 1's pointer has address 0",
        lambda: edited(entry=lambda indirect: indirect._replace(address=0)),
        "damaged 3 4206592",
    ),
    (
        "the indirect block's pointer 1 has address 0 and birth 9",
        lambda: edited(indirect=lambda data: data.bytes() + ODD_NONE),
        "damaged 4 4202496",
    ),
    (
        "the indirect block's pointer 1 names record 0",
        lambda: edited(indirect=lambda data: data.bytes() * 2),
        "damaged 4 4202496",
    ),
    ("entry 1 has one level and a byte more than a strip", lambda: edited(length=STRIP + 1), "damaged 3 4206592"),
    ("entry 1 has the length of a strip", lambda: edited(length=STRIP), "clean group 9 records 0"),
    ("entry 1 has length 0, and its record's pointer is kept", lambda: edited(length=0), "damaged 4 4202496"),
    (
        "entry 1's pointer has the address 4,202,497",
        lambda: edited(entry=lambda indirect: indirect._replace(address=INDIRECT_AT + 1)),
        "damaged 4 4202497",
    ),
    (
        "entry 1's pointer has birth 10",
        lambda: edited(entry=lambda indirect: indirect._replace(birth=10)),
        "damaged 4 4202496",
    ),
    ("byte 4 of record 0 is 1", lambda: edited(data=b"abcd\1"), "damaged 5 4198400"),
    ("the root pointer has address 0 and birth 9", without_root, "damaged 2 0"),
    ("a log block creates object 2 in group 10", lambda: Tank().log(), "clean group 9 records 1"),
    ("the same in group 9", lambda: Tank().log(group=9), "clean group 9 records 0"),
    ("the same in group 8", lambda: Tank().log(group=8), "clean group 9 records 0"),
    ("the same with used 4,009", lambda: Tank().log(used=4_009), "clean group 9 records 0"),
    ("the same with record length 28", lambda: Tank().log(length=28), "clean group 9 records 0"),
    ("the same with record length and used 28", lambda: Tank().log(length=28, used=28), "clean group 9 records 0"),
    ("a log block writes to object 2", lambda: Tank().log(op=("w", 2, 0, b"x")), "damaged 6 4194304"),
    ("a log block creates object 1, which is there", lambda: Tank().log(op=("c", 1, 0, b"")), "damaged 6 4194304"),
    ("all uberblocks are torn", without_uberblocks, "no pool"),
    *(
        (f"byte {place} of the uberblocks is {byte}", odd_slot(place, byte), "clean group 8 records 0")
        for place, byte in ODD_BYTES
    ),
    ("byte 32 of the uberblocks, of the moment, is 1", odd_slot(32, 1), "clean group 9 records 0"),
    *(
        (f"the same of byte {place} without its check", odd_slot(place, 1, is_sealed=False), "clean group 8 records 0")
        for place in (32, 992, 1_023)
    ),
    ("labels 0 and 2 have another name of group 9", lambda: even_configs(9), "clean group 9 records 0", "pond"),
    ("labels 0 and 2 have another name of group 10", lambda: even_configs(10), "clean group 9 records 0"),
    (
        "a log block names the pool in group 10",
        lambda: Tank().log(op=naming(b"pond")),
        "clean group 9 records 1",
        "pond",
    ),
    ("the same in group 9", lambda: Tank().log(group=9, op=naming(b"pond")), "clean group 9 records 0"),
    ("the same with a name of 64 bytes", lambda: Tank().log(op=naming(b"a" * 64)), "clean group 9 records 1", "a" * 64),
    ("the same with a name of 65 bytes", lambda: Tank().log(op=naming(b"a" * 65)), "clean group 9 records 0"),
    ("the same with an empty name", lambda: Tank().log(op=naming(b"")), "clean group 9 records 0"),
    (
        "the same with a name that begins with a digit",
        lambda: Tank().log(op=naming(b"4pond")),
        "clean group 9 records 0",
    ),
]
