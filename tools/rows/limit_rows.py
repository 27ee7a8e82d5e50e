"""Rows with many lines of one kind, and rows at a limit."""

from tools.model.contents import digest
from tools.model import layout
from tools.model.layout import LABEL, MAX_COPIES, MIB, NAMED, STRIP
from tools.rows.script_row import Row


def many_objects():
    """A hundred objects are made by four owners, 25 by each. What no one holds or began is refused."""
    row = Row("a hundred objects are made by four owners")
    row.say("create tank 77", "ok")
    row.say(f"import {MIB}", "synced 8 open 9 records 0")
    for number in range(100):
        owner = number // 25
        row.say(f"lock {owner} {number} w 0 {layout.MAX_LENGTH}", f"lock {number}")
        row.say(f"begin {owner} c:{number}", f"tx {number} group 9")
        row.say(f"commit {number}", f"entry {number} group 9")
        row.say(f"unlock {owner} {number}", "ok")
    for number in range(100):
        row.say(f"length {number}", "length 0")
    # each creation is charged two blocks
    row.say_all("""
status -> synced 8 syncing - middle - open 9 dirty 819200 free 895 available 695
lock 1 0 w 0 4 -> lock 100
unlock 1 100 -> ok
begin 1 c:100 -> refused 13 NotLocked
unlock 1 1000 -> refused 21 NoSuchLock
""")
    yield row


def many_records():
    """150 creations have records of 27 bytes, of which 148 fit into the 4,008 bytes of a log block."""
    row = Row("a hundred and fifty objects are made, and their records fill more than one log block")
    row.say("create tank 77", "ok")
    row.say(f"import {4 * MIB}", "synced 8 open 9 records 0")
    for number in range(150):
        row.say(f"lock 1 {number} w 0 {layout.MAX_LENGTH}", f"lock {number}")
        row.say(f"begin 1 c:{number}", f"tx {number} group 9")
        row.say(f"commit {number}", f"entry {number} group 9")
        row.say(f"unlock 1 {number}", "ok")
    row.say_all("""
log-write -> logged 148
log-write -> logged 2
log-write -> refused 20 NotReady
log-flush -> flushed
crash -> crashed 0
import 1048576 -> synced 12 open 13 records 150
length 0 -> length 0
length 149 -> length 0
length 150 -> refused 9 NoObject
""")
    yield row


def full_log():
    """On 6 MiB 383 blocks are free. A creation is charged two blocks, a write five. So 73 writes leave 16 blocks. A log
    write takes a block, and needs 17 that are available; a plan that only removes needs no more than its own."""
    row = Row("a log write and a plan need blocks that stay available, and a plan that only removes does not", 6 * MIB)
    row.say_all("""
create tank 77 -> ok
import 4194304 -> synced 8 open 9 records 0
status -> synced 8 syncing - middle - open 9 dirty 0 free 383 available 383
lock 1 0 w 0 MAX_LENGTH -> lock 0
lock 1 1 w 0 MAX_LENGTH -> lock 1
begin 1 c:0 -> tx 0 group 9
commit 0 -> entry 0 group 9
status -> synced 8 syncing - middle - open 9 dirty 8192 free 383 available 381
""")
    for number in range(1, 74):
        row.say("begin 1 w:0:0:4", f"tx {number} group 9")
        row.say(f"commit {number} abcd", f"entry {number} group 9")
    row.say_all("""
status -> synced 8 syncing - middle - open 9 dirty 1503232 free 383 available 16
begin 1 w:0:0:4 -> refused 16 NoSpace
begin 1 c:1 -> refused 16 NoSpace
log-write -> refused 23 NoLogSpace
begin 1 d:0 -> tx 74 group 9
commit 74 -> entry 74 group 9
status -> synced 8 syncing - middle - open 9 dirty 1511424 free 383 available 14
log-write -> refused 23 NoLogSpace
crash -> crashed 0
import 4194304 -> synced 12 open 13 records 0
length 0 -> refused 9 NoObject
""")
    yield row


def many_locks():
    """256 locks of an object are the most."""
    row = Row("the most locks of an object")
    row.say("create tank 77", "ok")
    row.say(f"import {MIB}", "synced 8 open 9 records 0")
    for number in range(256):
        row.say("lock 1 1 r 0 4", f"lock {number}")
    row.say_all("""
lock 1 1 r 0 4 -> refused 22 TooMany
lock 1 1 w 2 3 -> refused 14 Busy
unlock 1 7 -> ok
unlock 1 7 -> refused 21 NoSuchLock
unlock 2 8 -> refused 21 NoSuchLock
lock 1 1 r 0 4 -> lock 256
""")
    yield row


def creates_and_removes(count):
    """So many shapes, each of five bytes, which are charged two blocks."""
    return " ".join(["c:1 d:1"] * (count // 2) + ["c:1"] * (count % 2))


def many_shapes():
    """A transaction has a record of at most 65,536 bytes. The record of 13,102 creations and removals has 65,532, and
    they are charged 26,204 blocks. A pool of 8 MiB has fewer, and a limit of 1 MiB of dirty bytes allows fewer."""
    charge = 4_096 * 26_204
    for shapes, limit, refusal in [
        (797, 16 * MIB, "refused 16 NoSpace"),
        (797, MIB, "refused 17 Throttled"),
        (798, MIB, "refused 17 Throttled"),
        (13_102, charge, "refused 16 NoSpace"),
        (13_102, charge - 1, "refused 17 Throttled"),
        (13_103, charge, "refused 18 TooLarge"),
        (20_000, MIB, "refused 18 TooLarge"),
    ]:
        row = Row(f"a plan of {shapes} shapes and a limit of {limit} dirty bytes: {refusal}")
        row.say("create tank 77", "ok")
        row.say(f"import {limit}", "synced 8 open 9 records 0")
        row.say(f"lock 1 1 w 0 {layout.MAX_LENGTH}", "lock 0")
        row.say(f"begin 1 {creates_and_removes(shapes)}", refusal)
        yield row


def many_parts(row, count):
    """So many parts of a record, the last of them too."""
    for _ in range(count - 1):
        row.say("log-write", "logged 0")
    row.say("log-write", "logged 1")


def most_shapes():
    """The most creations and removals are charged 26,204 blocks, of 26,239 that are free. Their record has 17 parts."""
    row = Row("the most creations and removals of a transaction", 428 * LABEL)
    row.say("create tank 77", "ok")
    row.say(f"import {128 * MIB}", "synced 8 open 9 records 0")
    row.say(f"lock 1 1 w 0 {layout.MAX_LENGTH}", "lock 0")
    row.say(f"begin 1 {creates_and_removes(13_102)}", "tx 0 group 9")
    row.say("status", "synced 8 syncing - middle - open 9 dirty 107331584 free 26239 available 35")
    row.say("commit 0", "entry 0 group 9")
    many_parts(row, 17)
    row.say_all("""
status -> synced 8 syncing - middle - open 9 dirty 107331584 free 26222 available 18
log-flush -> flushed
durable 0 9 -> durable yes
length 1 -> refused 9 NoObject
crash -> crashed 0
import 1048576 -> synced 12 open 13 records 1
length 1 -> refused 9 NoObject
status -> synced 12 syncing - middle - open 13 dirty 0 free 26239 available 26239
""")
    yield row


def many_names():
    """A name of 64 bytes has 69 bytes of a record, and is charged one block. The record of 949 names has 65,503 bytes,
    which are 17 parts, and that of 950 would have 65,572."""
    row = Row("949 names in one transaction, the most of 64 bytes", 16 * MIB)
    words = [letter * 64 for letter in "ab" * 474 + "c"]
    row.say("create tank 77", "ok")
    row.say(f"import {16 * MIB}", "synced 8 open 9 records 0")
    row.say(f"lock 1 {NAMED} w 0 {layout.MAX_LENGTH}", "lock 0")
    row.say("begin 1" + " n:64" * 950, "refused 18 TooLarge")
    row.say("begin 1" + " n:64" * 949, "tx 0 group 9")
    row.say("status", "synced 8 syncing - middle - open 9 dirty 3887104 free 2943 available 1994")
    row.say(f"commit 0 {' '.join(words)}", "entry 0 group 9")
    many_parts(row, 17)
    row.say_all(f"""
log-flush -> flushed
crash -> crashed 0
import 1048576 -> synced 12 open 13 records 1
name -> name {"c" * 64}
""")
    yield row


def long_record_without_space():
    """On 6 MiB 383 blocks are free. A creation and a write of 40,000 bytes are charged 16 blocks, 67 writes five each,
    and two writes, which are across two records, six each. The record of 40,039 bytes has ten parts. Its fourth one is
    written with 17 blocks that are available, and the fifth one is refused. After a sync it is written."""
    writes = [0] * 67 + [4_030] * 2
    row = Row("a log write of the next part needs blocks that are available, and goes on after a sync", 6 * MIB)
    row.say_all("""
create tank 77 -> ok
import 4194304 -> synced 8 open 9 records 0
lock 1 1 w 0 MAX_LENGTH -> lock 0
begin 1 c:1 -> tx 0 group 9
commit 0 -> entry 0 group 9
begin 1 w:1:0:40000 -> tx 1 group 9
commit 1 @40000:a -> entry 1 group 9
log-write -> logged 1
log-write -> logged 0
""")
    for number, place in enumerate(writes, 2):
        row.say(f"begin 1 w:1:{place}:4", f"tx {number} group 9")
        row.say(f"commit {number} bbbb", f"entry {number} group 9")
    row.say_all("""
status -> synced 8 syncing - middle - open 9 dirty 1486848 free 381 available 18
log-write -> logged 0
status -> synced 8 syncing - middle - open 9 dirty 1486848 free 380 available 17
log-write -> logged 0
log-write -> refused 23 NoLogSpace
log-flush -> flushed
durable 1 9 -> durable no
close -> open 10
quiesce -> quiesced 9
start -> syncing 9
finish -> synced 9
status -> synced 9 syncing - middle - open 10 dirty 0 free 367 available 367
durable 1 9 -> durable yes
log-write -> logged 0
status -> synced 9 syncing - middle - open 10 dirty 0 free 366 available 366
log-write -> logged 0
crash -> crashed 2
import 4194304 -> synced 13 open 14 records 0
length 1 -> length 40000
""")
    yield row


def printable_words():
    """A word of a commit has any printable ASCII but no space, from ! to ~. One that begins with @ stands for copies of
    a character, which may be @ or : too, and at most `MAX_COPIES` of them."""
    graphic = "".join(map(chr, range(33, 127)))
    content = graphic + ":::" + "@@" + "~"
    row = Row("words of each printable character, and copies of them")
    row.say_all(f"""
create tank 77 -> ok
import 1048576 -> synced 8 open 9 records 0
lock 1 1 w 0 MAX_LENGTH -> lock 0
begin 1 c:1 w:1:0:94 w:1:94:3 w:1:97:2 w:1:99:1 -> tx 0 group 9
commit 0 {graphic} @3:: @2:@ @1:~ -> entry 0 group 9
read 1 1 0 100 -> bytes 100 {content.encode().hex()}
begin 1 w:1:0:4 -> tx 1 group 9
commit 1 @{MAX_COPIES}:~ -> refused 12 OutOfPlan
commit 1 @00000000000000000000004:@ -> entry 1 group 9
read 1 1 0 5 -> bytes 5 4040404025
""")
    yield row


def many_words():
    """A transaction of a creation and 221 writes of a byte each has a record of 4,005 bytes, which is a log block. With
    222 writes it has 4,023 bytes, which are two."""
    for count, parts in [(221, 1), (222, 2)]:
        content = "".join(chr(ord("a") + number % 26) for number in range(count))
        row = Row(f"a commit of {count} words", 16 * MIB)
        row.say("create tank 77", "ok")
        row.say(f"import {16 * MIB}", "synced 8 open 9 records 0")
        row.say(f"lock 1 1 w 0 {layout.MAX_LENGTH}", "lock 0")
        row.say("begin 1 c:1 " + " ".join(f"w:1:{number}:1" for number in range(count)), "tx 0 group 9")
        row.say("commit 0 " + " ".join(content), "entry 0 group 9")
        row.say(f"read 1 1 0 {layout.MAX_LENGTH}", f"bytes {count} {content.encode().hex()}")
        many_parts(row, parts)
        yield row


def most_transactions():
    """64 open transactions are the most."""
    row = Row("the most open transactions")
    row.say("create tank 77", "ok")
    row.say(f"import {MIB}", "synced 8 open 9 records 0")
    for number in range(64):
        row.say(f"lock 1 {number} w 0 {layout.MAX_LENGTH}", f"lock {number}")
        row.say(f"begin 1 c:{number}", f"tx {number} group 9")
    row.say_all("""
lock 1 64 w 0 MAX_LENGTH -> lock 64
begin 1 c:64 -> refused 22 TooMany
begin 1 c:65 -> refused 13 NotLocked
commit 63 -> entry 0 group 9
begin 1 c:64 -> tx 64 group 9
abort 64 -> ok
abort 0 -> ok
""")
    yield row


def most_objects():
    """All 5,292 objects are made, 252 in a group, which is four directories."""
    row = Row("the most objects")
    row.say("create tank 77", "ok")
    row.say(f"import {4 * MIB}", "synced 8 open 9 records 0")
    for group in range(21):
        numbers = range(252 * group, 252 * (group + 1))
        for number in numbers:
            row.say(f"lock 1 {number} w 0 {layout.MAX_LENGTH}", f"lock {number}")
        row.say("begin 1 " + " ".join(f"c:{number}" for number in numbers), f"tx {group} group {9 + group}")
        row.say(f"commit {group}", f"entry {group} group {9 + group}")
        for number in numbers:
            row.say(f"unlock 1 {number}", "ok")
        row.say("sync", f"synced {9 + group}")
    made = digest(b"tank", dict.fromkeys(range(5_292), b""))
    row.say_all(f"""
digest -> digest {made}
crash -> crashed 0
import 1048576 -> synced 33 open 34 records 0
digest -> digest {made}
length 5291 -> length 0
length 5292 -> refused 11 BadRange
""")
    yield row


def longest_object():
    """The last strip of the longest object is read whole, after a crash and an import too."""
    content, begin = bytes(STRIP - 4) + b"wxyz", layout.MAX_LENGTH - STRIP
    row = Row("the longest object")
    row.say_all(f"""
create tank 77 -> ok
import 1048576 -> synced 8 open 9 records 0
lock 1 1 w 0 {layout.MAX_LENGTH} -> lock 0
begin 1 c:1 w:1:{layout.MAX_LENGTH - 4}:4 -> tx 0 group 9
commit 0 wxyz -> entry 0 group 9
sync -> synced 9
crash -> crashed 0
import 1048576 -> synced 13 open 14 records 0
lock 1 1 r 0 {layout.MAX_LENGTH} -> lock 0
read 1 1 {begin} {layout.MAX_LENGTH} -> bytes {STRIP} {content.hex()}
""")
    yield row


def many_log_blocks():
    """A log block for each of 150 records, and 1,100 records of which 148 fit into a block."""
    row = Row("a chain of 150 log blocks")
    row.say("create tank 77", "ok")
    row.say(f"import {4 * MIB}", "synced 8 open 9 records 0")
    for number in range(150):
        row.say(f"lock 1 {number} w 0 {layout.MAX_LENGTH}", f"lock {number}")
        row.say(f"begin 1 c:{number}", f"tx {number} group 9")
        row.say(f"commit {number}", f"entry {number} group 9")
        row.say("log-write", "logged 1")
    row.say_all("""
log-flush -> flushed
crash -> crashed 0
import 1048576 -> synced 12 open 13 records 150
length 0 -> length 0
length 149 -> length 0
length 150 -> refused 9 NoObject
""")
    yield row
    row = Row("1,100 records that wait for the log", 16 * MIB)
    row.say("create tank 77", "ok")
    row.say(f"import {16 * MIB}", "synced 8 open 9 records 0")
    row.say(f"lock 1 1 w 0 {layout.MAX_LENGTH}", "lock 0")
    for number in range(1_100):
        row.say(f"begin 1 {'cd'[number % 2]}:1", f"tx {number} group 9")
        row.say(f"commit {number}", f"entry {number} group 9")
    for _ in range(7):
        row.say("log-write", "logged 148")
    row.say_all("""
log-write -> logged 64
log-flush -> flushed
crash -> crashed 0
import 1048576 -> synced 12 open 13 records 1100
length 1 -> refused 9 NoObject
""")
    yield row
