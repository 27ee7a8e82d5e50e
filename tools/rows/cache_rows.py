"""Rows of imports that let so many tree blocks stay in memory.

Object 1 has as many blocks as may stay. So a second digest has all of them from memory. Then one more record is
written. The next digest reads the blocks that were written, and one more than those, since one had to go.
"""

from tools.model import layout
from tools.model.contents import digest
from tools.model.layout import MIB, POINTERS, RECORD
from tools.rows.script_row import Row

# How many blocks may stay, what an import says of that, the size of the device, and the first and the last record of
# object 1.
ROOMS = [(2, " 2", 8 * MIB, 1, 1), (256, "", 8 * MIB, 50, 300), (4_096, " 4096", 24 * MIB, 65, 4_110)]
# The records of one transaction, and the transactions of one group.
AT_ONCE, OF_GROUP = 16, 8


def strips(first, last):
    """How many strips these records lie in."""
    return last // POINTERS - first // POINTERS + 1


def blocks(first, last):
    """How many blocks an object of these records has: the records, their indirect blocks, and the top if its length
    passes a strip."""
    return last - first + 1 + strips(first, last) + int(last >= POINTERS)


def write_records(row, first, last):
    """Writes these records of object 1 in groups of some transactions, and says the last group."""
    writes = [(at, min(AT_ONCE, last + 1 - at)) for at in range(first, last + 1, AT_ONCE)]
    group = 9
    for number, (at, count) in enumerate(writes):
        row.say(f"begin 1 {'c:1 ' * (number == 0)}w:1:{RECORD * at}:{RECORD * count}", f"tx {number} group {group}")
        row.say(f"commit {number} @{RECORD * count}:a", f"entry {number} group {group}")
        if (number + 1) % OF_GROUP == 0 or number + 1 == len(writes):
            row.say("sync", f"synced {group}")
            group += 1
    return group - 1


def rooms():
    for room, told, size, first, last in ROOMS:
        assert (blocks(first, last), blocks(first - 1, last)) == (room, room + 1)
        row = Row(f"{room} tree blocks may stay in memory{'' if told else ' if no number is given'}", size)
        row.say("create tank 77", "ok")
        row.say(f"import {4 * MIB}", "synced 8 open 9 records 0")
        row.say(f"lock 1 1 w 0 {layout.MAX_LENGTH}", "lock 0")
        group = write_records(row, first, last) + 5
        made = digest(b"tank", {1: bytes(RECORD * first) + b"a" * RECORD * (last + 1 - first)})
        # Of the next group the record, its indirect block, and the top if there is one.
        written = 2 + int(last >= POINTERS)
        row.say_all(f"""
crash -> crashed 0
import {4 * MIB}{told} -> synced {group - 1} open {group} records 0
lock 1 1 w 0 {layout.MAX_LENGTH} -> lock 0
digest -> digest {made}
fail read 1 -> ok
digest -> digest {made}
begin 1 w:1:{RECORD * (first - 1)}:1 -> tx 0 group {group}
commit 0 b -> entry 0 group {group}
sync -> synced {group}
fail read {written + 1} -> ok
digest -> refused 2 Read
""")
        yield row
