"""The blocks of syncs, counted place by place, against `count_blocks` and what they are charged.

Here they are told as `crates/base/specs/tree/Syncs.antt` defines them: by the state of each record after each
operation. The numbers are small ones: records of four bytes, strips of two records, and objects of three strips.
"""

import random
import unittest
from unittest import mock

from tools.model import charges, layout
from tools.model.contents import Entry, apply

RECORD, POINTERS, STRIPS, ENTRIES = 4, 2, 3, 2
STRIP = RECORD * POINTERS
RECORDS, LONGEST = POINTERS * STRIPS, STRIP * STRIPS
UNCHANGED, DIRTY, HOLE = "unchanged", "dirty", "hole"
# The objects 0 and 1 are in one directory, and 2 is in another one.
OBJECTS = range(3)


def state_after(at, state, op, old):
    """The state of a record of the object that an operation is on, which has this length before it."""
    kind, _, place, content = op
    if kind in "cd":
        return HOLE
    if kind == "w":
        return DIRTY if place < RECORD * (at + 1) and RECORD * at < place + len(content) else state
    if place >= old:
        return state
    if place <= RECORD * at:
        return HOLE
    return DIRTY if place < RECORD * (at + 1) else state


class Group:
    """What a group makes of the objects of a tree in which these records and these strips have a block."""

    def __init__(self, objects, records, strips, ops):
        self.records, self.strips, self.ops = records, strips, ops
        self.states = {(number, at): UNCHANGED for number in OBJECTS for at in range(RECORDS)}
        for op in ops:
            old = len(objects.get(op[1], b""))
            for at in range(RECORDS):
                self.states[op[1], at] = state_after(at, self.states[op[1], at], op, old)
            objects = apply(objects, [op])
        self.objects = objects

    def has_after(self, number, at):
        state = self.states[number, at]
        return state == DIRTY or (state == UNCHANGED and at in self.records.get(number, ()))

    def is_changed(self, number):
        return any(op[1] == number and op[0] in "wl" for op in self.ops)

    def of_strip(self, strip):
        return range(POINTERS * strip, POINTERS * (strip + 1))

    def is_strip_changed(self, number, strip):
        return any(self.states[number, at] != UNCHANGED for at in self.of_strip(strip))

    def has_strip_after(self, number, strip):
        return any(self.has_after(number, at) for at in self.of_strip(strip))

    def is_indirect_written(self, number, strip, is_long):
        changed = self.is_strip_changed(number, strip) if is_long else strip == 0 and self.is_changed(number)
        return changed and self.has_strip_after(number, strip)

    def is_strip_kept(self, number, strip):
        if self.is_strip_changed(number, strip):
            return self.has_strip_after(number, strip)
        return strip in self.strips.get(number, ())

    def blocks_of(self, number):
        is_long = len(self.objects.get(number, b"")) > STRIP
        data = sum(self.states[number, at] == DIRTY for at in range(RECORDS))
        indirect = sum(self.is_indirect_written(number, strip, is_long) for strip in range(STRIPS))
        kept = any(self.is_strip_kept(number, strip) for strip in range(STRIPS))
        return data + indirect + (is_long and self.is_changed(number) and kept)

    def blocks(self):
        touched = {op[1] // ENTRIES for op in self.ops}
        directories = sum(any(number // ENTRIES == one for number in self.objects) for one in touched)
        root = bool(touched) and bool(self.objects)
        return sum(map(self.blocks_of, OBJECTS)) + directories + root


def some_op(chance, objects):
    number = chance.choice(OBJECTS)
    if number not in objects:
        return "c", number, 0, b""
    kind = chance.choice("dwwwlll")
    if kind == "w":
        low = chance.randrange(LONGEST)
        return "w", number, low, b"x" * chance.randint(1, min(LONGEST - low, 6))
    return kind, number, chance.randint(0, LONGEST) if kind == "l" else 0, b""


def some_tree(chance):
    """Objects, and of each the records and the strips with a block. Some strips have a block without a record."""
    objects = {number: bytes(chance.randint(0, LONGEST)) for number in OBJECTS if chance.random() < 0.7}
    records, strips = {}, {}
    for number, content in objects.items():
        below = -(-len(content) // RECORD)
        records[number] = {at for at in range(below) if chance.random() < 0.5}
        empty = {at for at in range(-(-below // POINTERS)) if chance.random() < 0.1}
        strips[number] = {at // POINTERS for at in records[number]} | empty
    return objects, records, strips


class Syncs(unittest.TestCase):
    def test_groups_by_chance(self):
        small = {"RECORD": RECORD, "STRIP": STRIP, "POINTERS": POINTERS, "ENTRIES": ENTRIES}
        told = mock.patch.multiple(layout, STRIP=STRIP, MAX_LENGTH=LONGEST)
        with mock.patch.multiple(charges, **small), told:
            for seed in range(3_000):
                self.compare(random.Random(seed), seed)

    def compare(self, chance, seed):
        objects, records, strips = some_tree(chance)
        after, ops = objects, []
        for _ in range(chance.randint(1, 5)):
            ops.append(some_op(chance, after))
            after = apply(after, ops[-1:])
        group = Group(objects, records, strips, ops)
        entries = [Entry(9, [op]) for op in ops]
        blocks, left = charges.count_blocks(objects, records, entries, strips)
        self.assertEqual(blocks, group.blocks(), (seed, ops))
        wanted = {number: {at for at in range(RECORDS) if group.has_after(number, at)} for number in after}
        self.assertEqual(left, wanted, (seed, ops))
        self.assertLessEqual(blocks, sum(map(charges.estimate, entries)), (seed, ops))
