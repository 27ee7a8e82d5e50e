"""The contents of a pool, a name and a map of objects, and what committed transactions make of them."""

import collections
import hashlib
import itertools
import struct

from tools.model import layout

# An entry is a committed transaction: its group, and its operations as (kind, object, place or length, bytes). The
# kinds are the letters of a script: `c` creates the object, `d` removes it, `w` writes bytes at a place, `l` sets the
# length, `n` gives the pool the bytes as its name, with the number `NAMED` as the object.
Entry = collections.namedtuple("Entry", "group ops")


def apply(objects, ops):
    """The operations of a transaction on a map of objects, or None if one of them is refused."""
    objects = dict(objects)
    for kind, number, place, content in ops:
        if kind == "n":
            continue
        if (kind == "c") == (number in objects):
            return None
        if kind == "c":
            objects[number] = b""
        elif kind == "d":
            del objects[number]
        elif kind == "l":
            objects[number] = objects[number][:place].ljust(place, b"\0")
        else:
            old = objects[number].ljust(place, b"\0")
            objects[number] = old[:place] + content + old[place + len(content) :]
    return objects


def replay(objects, entries):
    """The objects after these entries, in their order. None of them is refused."""
    for entry in entries:
        objects = apply(objects, entry.ops)
        assert objects is not None
    return objects


def rename(name, entries):
    """The name after these entries: the last one that they give."""
    return [name, *(content for entry in entries for kind, _, _, content in entry.ops if kind == "n")][-1]


def digest(name, objects):
    """The digest of a pool: its name and its objects, by rising number, each with its length."""
    parts = [struct.pack("<I", len(name)), name, struct.pack("<I", len(objects))]
    for number, content in sorted(objects.items()):
        parts += [struct.pack("<IQ", number, len(content)), content]
    return hashlib.sha256(b"".join(parts)).hexdigest()


def conflict(one, other):
    """Whether two transactions conflict: they touch a common byte of a number."""
    for kind, number, place, content in one.ops:
        low, high = (place, place + len(content)) if kind == "w" else (0, layout.MAX_LENGTH)
        for kind2, number2, place2, content2 in other.ops:
            low2, high2 = (place2, place2 + len(content2)) if kind2 == "w" else (0, layout.MAX_LENGTH)
            if number == number2 and low < high2 and low2 < high:
                return True
    return False


def is_cut(entries, is_left):
    """Whether no entry that is left conflicts with an earlier one that is not."""
    return not any(
        is_left[at] and not is_left[before] and conflict(entries[before], entries[at])
        for before, at in itertools.combinations(range(len(entries)), 2)
    )
