"""Rows of syncs that a crash, a refused call or a stopped import follows, each unflushed write told by its letter."""

import itertools

from tools.model.layout import MIB
from tools.rows.script_row import Row

# An import of group u syncs u + 4, and the next one is open. An object's creation is synced by two blocks, a flush,
# four uberblocks and a flush.
SEVEN_CALLS = """
create tank 77 -> ok
import 1048576 -> synced 8 open 9 records 0
lock 1 1 w 0 MAX_LENGTH -> lock 0
begin 1 c:1 -> tx 0 group 9
commit 0 -> entry 0 group 9
close -> open 10
quiesce -> quiesced 9
start -> syncing 9
"""


def seven_steps(title, plan):
    """A sync of seven steps, in which a call is planned to fail or not."""
    row = Row(title)
    row.say_all(SEVEN_CALLS)
    if plan:
        row.say(plan, "ok")
    for _ in range(7):
        row.say("step", "more")
    return row


def crash_seven_steps(row, letters):
    """A crash with four unflushed uberblocks. The group is mounted if one of them was kept."""
    row.say(f"crash {letters}", "crashed 4")
    if "k" in letters:
        row.say(f"import {MIB}", "synced 13 open 14 records 0")
        row.say("length 1", "length 0")
    else:
        row.say(f"import {MIB}", "synced 12 open 13 records 0")
        row.say("length 1", "refused 9 NoObject")
    return row


def whole_uberblocks():
    for letters in ["kttt", "tktt", "ttkt", "tttk", "tttt"]:
        row = seven_steps(f"one whole uberblock is enough: {letters}", None)
        yield crash_seven_steps(row, letters)
        row = seven_steps(f"one whole uberblock is enough, and a crash clears the plans: {letters}", "fail flush 2")
        yield crash_seven_steps(row, letters)


def eighth_steps():
    """The last flush of a sync fails, which makes nothing certain, and each later step is refused."""
    for letters in ["ttkt", "tttt"]:
        row = seven_steps(f"the eighth step of a sync suspends: {letters}", "fail flush 2")
        row.say("step", "refused 4 Flush")
        for line in [
            "step",
            "lock 1 2 w 0 4",
            "append 1 1",
            "unlock 1 0",
            "begin 1 c:2",
            "commit 0",
            "abort 0",
            "read 1 1 0 4",
            "length 1",
            "digest",
            "close",
            "quiesce",
            "start",
            "log-write",
            "log-flush",
        ]:
            row.say(line, "refused 5 Suspended")
        yield crash_seven_steps(row, letters)


def many_groups():
    """An empty group has no block: its sync is a flush, four uberblocks and a flush. The uberblock of group g lies in
    slot g mod 128, so 200 groups go round."""
    for letters, group, is_stepped in [
        ("tttt", 212, False),
        ("ttkt", 213, False),
        ("tttt", 212, True),
        ("tktt", 213, True),
    ]:
        how = ", the last of them by six steps" if is_stepped else ""
        row = Row(f"a crash after 200 empty groups{how}: {letters}")
        row.say("create tank 77", "ok")
        row.say(f"import {MIB}", "synced 8 open 9 records 0")
        for synced in range(9, 208):
            row.say("sync", f"synced {synced}")
        if is_stepped:
            row.say_all("close -> open 209\nquiesce -> quiesced 208\nstart -> syncing 208")
            for _ in range(5):
                row.say("step", "more")
            row.say("step", "synced 208")
        else:
            row.say("sync", "synced 208")
        row.say_all("close -> open 210\nquiesce -> quiesced 209\nstart -> syncing 209")
        for _ in range(5):
            row.say("step", "more")
        row.say(f"crash {letters}", "crashed 4")
        row.say(f"import {MIB}", f"synced {group} open {group + 1} records 0")
        yield row


# On 6 MiB a transaction makes object 1, of four bytes, and its group is synced by its block, its map, the directory,
# the root, a flush, four uberblocks and a flush.
TEN_CALLS = """
create tank 77 -> ok
import 1048576 -> synced 8 open 9 records 0
lock 1 1 w 0 MAX_LENGTH -> lock 0
begin 1 c:1 w:1:0:4 -> tx 0 group 9
commit 0 abcd -> entry 0 group 9
unlock 1 0 -> ok
close -> open 10
quiesce -> quiesced 9
start -> syncing 9
"""


def ten_steps(title, calls):
    """The sync with so many of its calls."""
    row = Row(title, 6 * MIB)
    row.say_all(TEN_CALLS)
    for call in range(calls):
        row.say("step", "synced 9" if call == 9 else "more")
    return row


def crash_with(row, letter, unflushed):
    """A crash that does the same with each unflushed write."""
    row.say(" ".join(["crash"] + [letter * unflushed] * (unflushed > 0)), f"crashed {unflushed}")


def import_behind(row, active):
    """The import syncs four groups on, and finds the object if its group is synced."""
    row.say(f"import {MIB}", f"synced {active + 4} open {active + 5} records 0")
    row.say("length 1", "length 4" if active > 8 else "refused 9 NoObject")


def ten_crashes():
    """A crash after each number of calls. The group is found if the last flush came, or if the uberblocks are kept."""
    for calls, letter in itertools.product(range(11), "klt"):
        row = ten_steps(f"a crash after {calls} calls of a sync, and each unflushed write is {letter}", calls)
        crash_with(row, letter, (calls if calls < 5 else calls - 5) if calls < 10 else 0)
        import_behind(row, 9 if calls == 10 or (calls > 5 and letter == "k") else 8)
        yield row


# The writes of an import of this pool: two configs, four uberblocks, two configs, with a flush after each of the three.
# Each has the number of unflushed writes then.
IMPORT_WRITES = [1, 2, 1, 2, 3, 4, 1, 2]


def lost_imports():
    """A synced pool is given up, and an import is stopped at each of its writes. What is unflushed is lost, and the
    next import finds the object."""
    for write, unflushed in enumerate(IMPORT_WRITES, 1):
        row = ten_steps(f"an import that is stopped at write {write}, and each unflushed write is lost", 10)
        row.say(f"fail write {write}", "ok")
        row.say(f"import {MIB}", "refused 3 Write")
        crash_with(row, "l", unflushed)
        import_behind(row, 13 if write > 6 else 9)
        yield row
