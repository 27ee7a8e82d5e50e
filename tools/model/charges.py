"""What transactions are charged, and the blocks that their sync writes and reads."""

import math

from tools.model.layout import ENTRIES, POINTERS, RECORD, STRIP, count_touched, levels_of


def record_size(entry):
    """The bytes of an entry's record in the log."""
    sizes = {"c": 5, "d": 5, "l": 13, "w": 17, "n": 5}
    return 22 + sum(sizes[kind] + len(content) for kind, _, _, content in entry.ops)


def estimate(entry):
    """The blocks that an entry is charged. Of a write these are its records, their indirect blocks, the top, the
    directory and the root."""
    blocks = 0
    for kind, _, place, content in entry.ops:
        if kind == "w":
            blocks += count_touched(RECORD, place, len(content)) + count_touched(STRIP, place, len(content)) + 3
        else:
            blocks += {"c": 2, "d": 2, "l": 5, "n": 1}[kind]
    return blocks


class Change:
    """What a group makes of an object's records.

    - A record is dirty if a write touched it or a cut goes through it. A later cut before it takes that back, and so
      does a create or a remove.
    - From the byte `low` on nothing is left of before the group: that is the lowest cut. Records that begin there are
      holes if they aren't dirty.
    - `writes` has the ranges that were written.
    - The object is changed if it was written or its length set.
    """

    def __init__(self):
        self.dirty, self.low, self.writes, self.is_changed = set(), math.inf, [], False

    def add(self, kind, place, content, old):
        """An operation on the object, which has this length before it."""
        self.is_changed = self.is_changed or kind in "wl"
        if kind in "cd":
            self.cut(0)
        elif kind == "w":
            self.write(place, place + len(content))
        elif place < old:
            self.cut(place)

    def cut(self, place):
        self.low = min(self.low, place)
        self.dirty = {record for record in self.dirty if record * RECORD < place}
        if place % RECORD:
            self.dirty.add(place // RECORD)

    def write(self, low, high):
        self.dirty |= set(range(low // RECORD, (high - 1) // RECORD + 1))
        self.writes.append((low, high))

    def records_after(self, before):
        """The records that are no holes, of those that were none."""
        return {record for record in before if record * RECORD < self.low} | self.dirty

    def shows(self, record):
        """Whether a byte of a record is as it was before."""
        begin, end = record * RECORD, (record + 1) * RECORD
        shown = set(range(begin, min(end, self.low)))
        for low, high in self.writes:
            shown.difference_update(range(max(low, begin), min(high, end)))
        return bool(shown)

    def touches(self, strip):
        """Whether a record of a strip is dirty or cut off."""
        return self.low <= (strip + 1) * STRIP - RECORD or any(record // POINTERS == strip for record in self.dirty)


def strips_of(records):
    """The strips of these records."""
    return {record // POINTERS for record in records}


def changes_of(objects, entries):
    """The changes of each object that these entries touch, and the lengths of all objects after them."""
    changes, lengths = {}, {number: len(content) for number, content in objects.items()}
    for entry in entries:
        for kind, number, place, content in entry.ops:
            if kind == "n":
                continue
            old = lengths.pop(number, 0)
            changes.setdefault(number, Change()).add(kind, place, content, old)
            if kind != "d":
                lengths[number] = {"c": 0, "l": place, "w": max(old, place + len(content))}[kind]
    return changes, lengths


def count_above(change, length, after, strips):
    """The number of indirect blocks and tops that are written of an object of this length. Its records `after` are no
    holes, and these strips had an indirect block before.

    With one level the only indirect block is written if the object is changed. With two levels those are written whose
    records are changed, and the top if the object is. None of them is written without anything below it.
    """
    if levels_of(length) == 1:
        return int(change.is_changed and bool(after))
    written = {strip for strip in strips_of(after) if change.touches(strip)}
    kept = {strip for strip in strips if not change.touches(strip)}
    return len(written) + (change.is_changed and bool(written | kept))


def count_blocks(objects, records, entries, strips=None):
    """The number of blocks that a sync of these entries writes, and the records that are no holes after it.

    Before it these objects are there, and of each these records are no holes. The strips that have an indirect block
    are those of the records, if no others are given.
    """
    changes, lengths = changes_of(objects, entries)
    after, blocks = dict(records), 0
    for number, change in changes.items():
        before = records.get(number, set())
        held = strips_of(before) if strips is None else strips.get(number, set())
        after[number] = change.records_after(before)
        blocks += len(change.dirty) + count_above(change, lengths.get(number, 0), after[number], held)
    directories = {number // ENTRIES for number in changes}
    blocks += sum(any(n // ENTRIES == one for n in lengths) for one in directories)
    blocks += bool(directories) and bool(lengths)
    return blocks, {number: some for number, some in after.items() if number in lengths}


def count_reads(objects, records, entries):
    """The number of blocks that a plan of these entries reads, over objects and the records of each that are no holes.

    They are the top of each object that has one and that an operation is on, and then its indirect blocks: all if it
    has one level after the entries, else those with a record that is dirty or cut off. Then comes each record that is
    written, unless no byte of the record below shows.
    """
    (changes, lengths), blocks = changes_of(objects, entries), 0
    for number, change in changes.items():
        before = records.get(number, set())
        is_short = levels_of(lengths.get(number, 0)) == 1
        blocks += bool(before) and levels_of(len(objects[number])) == 2
        blocks += sum(is_short or change.touches(strip) for strip in strips_of(before))
        blocks += sum(change.shows(record) for record in before & change.dirty)
    return blocks


def tree_blocks(objects, records):
    """The number of blocks of a tree."""
    data = sum(map(len, records.values()))
    indirect = sum(len(strips_of(some)) for some in records.values())
    tops = sum(bool(some) and levels_of(len(objects[number])) == 2 for number, some in records.items())
    return data + indirect + tops + len({n // ENTRIES for n in objects}) + bool(objects)
