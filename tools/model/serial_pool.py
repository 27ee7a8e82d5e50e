"""A plain serial pool: a list of entries, a map of objects and a name.

A crash leaves the replay of the entries up to a group, and after them of those whose records stand in the log, in their
order. What an engine has to answer is taken from here; nothing is taken from a program.

`Run` is a pool from an import to a crash, `Image` what the crash leaves, up to the next import that ends.
"""

import collections
import copy

from tools.model.charges import count_blocks, count_reads, estimate, record_size, tree_blocks
from tools.model.contents import Entry, is_cut, rename, replay
from tools.model.layout import CHARGE, LOG_AVAILABLE, LOG_ROOM, MIB, block_count

# The pools here have the least size.
LEAST = 6 * MIB
BLOCKS = block_count(LEAST)

# The answers to a call of the device that fails, by its kind.
REFUSALS = {"read": "refused 2 Read", "write": "refused 3 Write", "flush": "refused 4 Flush"}

# What a synced group left: the pool's name, its objects, and of each the records that are no holes.
Tree = collections.namedtuple("Tree", "group name objects records")

# A log block: its number in the chain, and the ordinals of the entries whose records begin in it, and of those whose
# records end in it. A record that is no longer than a block begins and ends in the same one.
LogBlock = collections.namedtuple("LogBlock", "number begins ends")

# A record that is begun and not whole: the ordinal of its entry, and how many of its bytes are in no block yet.
Unfinished = collections.namedtuple("Unfinished", "ordinal left")

# A write of a sync or an import: of a block of the tree or a label's config, which tells nothing until an uberblock
# names it; or of an uberblock.
PART, UBERBLOCK = "part", "uberblock"


def standing(writes, letters):
    """The writes that stand after a crash with these letters; a missing letter is `k`."""
    return [write for write, letter in zip(writes, letters.ljust(len(writes), "k")) if letter == "k"]


class Sync:
    """A sync that runs: the tree that it writes, how many blocks it writes for it, the log's number in its uberblocks,
    and whether its group gives a name.

    Its calls are the writes of its blocks, a flush, four uberblocks and a flush. With a name two configs and a flush
    come before the uberblocks, and two configs and a flush come last.
    """

    def __init__(self, tree, blocks, header, is_named):
        self.tree, self.blocks, self.header = tree, blocks, header
        labels = ([PART] * 2 + ["flush"]) * is_named
        self.calls = [PART] * blocks + ["flush"] + labels + [UBERBLOCK] * 4 + ["flush"] + labels
        self.made = 0
        # Whether one of its uberblocks is flushed.
        self.is_mounted = False


class Run:
    """A pool from the import that mounted it to a crash.

    It has the tree of the synced group, the entries since the import, the log blocks, and the writes that are not
    flushed. A flush makes each write certain that came before it, whether a sync or the log made it. A commit is
    acknowledged by a log flush after its record's write, and by the end of its group's sync.
    """

    def __init__(self, tree):
        self.mounted_name, self.mounted, self.tree, self.open = tree.name, tree.objects, tree, tree.group + 1
        self.entries, self.begun = [], []
        self.sync = None
        # The log blocks by their numbers; the one that the synced uberblock names, or the next one; the entry from
        # which on no record is begun; and the record that is begun and not whole, or None.
        self.log, self.header, self.written, self.unfinished = [], 0, 0, None
        # The log blocks before these numbers are flushed by a log flush, and by any flush.
        self.flushed, self.certain = 0, 0
        self.unflushed = []

    def contents(self):
        return replay(self.mounted, self.entries)

    def name(self):
        return rename(self.mounted_name, self.entries)

    def begin(self, ops):
        """A transaction in the open group, until it is committed."""
        self.begun.append(Entry(self.open, ops))
        return self.begun[-1]

    def commit(self, entry):
        """The ordinal of a transaction that was begun."""
        self.begun.remove(entry)
        self.entries.append(entry)
        return len(self.entries) - 1

    def of_group(self, group):
        return [entry for entry in self.entries if entry.group == group]

    def pending(self):
        """The ordinals of the entries of unsynced groups whose records are not begun."""
        return [at for at in range(self.written, len(self.entries)) if self.entries[at].group > self.tree.group]

    def log_write_refusal(self):
        """How a log write is refused, or None. A record that is begun stays pending until it is whole, also if its
        group is synced."""
        if not self.unfinished and not self.pending():
            return "refused 20 NotReady"
        return None if self.available() >= LOG_AVAILABLE else "refused 23 NoLogSpace"

    def take_records(self):
        """The next log block, with as many whole pending records as fit, or with the first part of a longer one."""
        number, room, ordinals = len(self.log), LOG_ROOM, []
        for ordinal in self.pending():
            room -= record_size(self.entries[ordinal])
            if room < 0:
                break
            ordinals.append(ordinal)
        if ordinals:
            self.written = ordinals[-1] + 1
            return LogBlock(number, ordinals, ordinals)
        first = self.pending()[0]
        self.written, self.unfinished = first + 1, Unfinished(first, record_size(self.entries[first]) - LOG_ROOM)
        return LogBlock(number, [first], [])

    def take_part(self):
        """The next log block, with the next part of the record that is begun, and nothing else."""
        ordinal, left = self.unfinished
        self.unfinished = Unfinished(ordinal, left - LOG_ROOM) if left > LOG_ROOM else None
        return LogBlock(len(self.log), [], [] if self.unfinished else [ordinal])

    def log_write(self, is_refused=False):
        """The number of records that a log write finishes, which may be none."""
        assert self.log_write_refusal() is None
        block = self.take_part() if self.unfinished else self.take_records()
        self.log.append(block)
        self.unflushed.append(PART if is_refused else block)
        return len(block.ends)

    def awaits_flush(self):
        """Whether a log block that is kept was not flushed by a log flush."""
        return len(self.log) > max(self.flushed, self.header)

    def log_flush(self):
        """Whether there was a log block to be flushed."""
        if not self.awaits_flush():
            return False
        self.flush()
        self.flushed = len(self.log)
        return True

    def is_acknowledged(self, ordinal):
        in_log = any(ordinal in block.ends for block in self.log[: self.flushed])
        return in_log or self.entries[ordinal].group <= self.tree.group

    def is_durable(self, ordinal, group):
        is_receipt = ordinal < len(self.entries) and self.entries[ordinal].group == group
        return group <= self.tree.group or (is_receipt and self.is_acknowledged(ordinal))

    def is_needed(self, block, group):
        """Whether a record begins in a log block that is of a group after this one, or isn't whole."""
        unfinished = self.unfinished and self.unfinished.ordinal
        return any(self.entries[ordinal].group > group or ordinal == unfinished for ordinal in block.begins)

    def start(self):
        """The sync of the group after the synced one starts. Its header is the first kept log block that is needed
        after it, or else the next one."""
        group, (_, name, objects, records) = self.tree.group + 1, self.tree
        entries = self.of_group(group)
        blocks, records = count_blocks(objects, records, entries)
        is_named = any(kind == "n" for entry in entries for kind, _, _, _ in entry.ops)
        needed = [block.number for block in self.log[self.header :] if self.is_needed(block, group)]
        tree = Tree(group, rename(name, entries), replay(objects, entries), records)
        self.sync = Sync(tree, blocks, [*needed, len(self.log)][0], is_named)

    def flush(self):
        """A flush of the device."""
        if UBERBLOCK in self.unflushed:
            self.sync.is_mounted = True
        self.certain, self.unflushed = len(self.log), []

    def step(self):
        """The next call of the sync: whether it was the last. Then the group is synced, and the log blocks before its
        header come back."""
        call = self.sync.calls[self.sync.made]
        self.sync.made += 1
        if call == "flush":
            self.flush()
        else:
            self.unflushed.append(call)
        if self.sync.made < len(self.sync.calls):
            return False
        self.tree, self.header, self.sync = self.sync.tree, self.sync.header, None
        return True

    def refuse_step(self):
        """The next call of the sync is refused: whether it is a flush."""
        is_flush = self.sync.calls[self.sync.made] == "flush"
        if not is_flush:
            self.unflushed.append(PART)
        return is_flush

    def free(self):
        """The number of blocks in neither the tree nor the kept log nor its next address, and not taken by the sync."""
        taken = self.sync.blocks if self.sync else 0
        return BLOCKS - tree_blocks(*self.tree[2:]) - (len(self.log) - self.header) - 1 - taken

    def reserved(self):
        return sum(estimate(entry) for entry in [*self.entries, *self.begun] if entry.group > self.tree.group)

    def available(self):
        taken = self.sync.blocks if self.sync else 0
        return self.free() - (self.reserved() - taken)

    def status(self):
        """The groups, the charges and the blocks, as a script prints them."""
        group, synced = self.sync and self.sync.tree.group, self.tree.group
        middle = self.open - 1 if self.open - 1 > (group or synced) else None
        groups = f"synced {synced} syncing {group or '-'} middle {middle or '-'} open {self.open}"
        return f"{groups} dirty {CHARGE * self.reserved()} free {self.free()} available {self.available()}"

    def crash(self, letters=""):
        """The image that a crash with these letters leaves; a missing one is `k`.

        The synced group's tree is mounted, or that of the running sync if an uberblock of it stands. The chain goes
        from the tree's header on as long as log blocks stand, and up to the last one in which a record ends. Its
        records of later groups are replayed.
        """
        writes, tree, header = standing(self.unflushed, letters), self.tree, self.header
        if self.sync and (self.sync.is_mounted or UBERBLOCK in writes):
            tree, header = self.sync.tree, self.sync.header
        lost = [block.number for block in self.log[max(header, self.certain) :] if block not in writes]
        front = self.log[header : min(lost, default=None)]
        ordinals = [at for block in front for at in block.ends if self.entries[at].group > tree.group]
        parts = next((at for at, block in enumerate(reversed(front)) if block.ends), len(front))
        image = Image(tree, len(front) + 1, [self.entries[at] for at in ordinals], parts)
        is_left = [entry.group <= tree.group or at in ordinals for at, entry in enumerate(self.entries)]
        assert all(is_left[at] for at in range(len(is_left)) if self.is_acknowledged(at))
        assert is_cut(self.entries, is_left)
        left = [entry for entry, stays in zip(self.entries, is_left) if stays]
        assert replay(self.mounted, left) == image.objects and rename(self.mounted_name, left) == image.name
        return image


class Image:
    """What an import finds: the tree of the active group, the places of the log that it reads, and the entries whose
    records it replays. So many of the places have parts of a record that isn't whole, which are free for an import. An
    import of group u syncs u + 4."""

    def __init__(self, tree, places=0, entries=(), parts=0):
        self.tree, self.places, self.entries, self.parts = tree, places, entries, parts
        self.name, self.objects = rename(tree.name, entries), replay(tree.objects, entries)
        self.blocks, records = count_blocks(*tree[2:], entries)
        self.synced = Tree(tree.group + 4, self.name, self.objects, records)

    def calls(self):
        """The device calls of an import.

        A flush. The reads of four arrays of uberblocks, four configs, the tree and the log; and those of what its plan
        needs: the indirect blocks of the objects that the replayed entries are on, and the records that they change in
        part. The blocks of these entries, a flush; two configs, a flush; four uberblocks, a flush; two configs, and a
        flush.
        """
        reads = 8 + tree_blocks(*self.tree[2:]) + self.places + count_reads(*self.tree[2:], self.entries)
        labels = [PART] * 2 + ["flush"]
        blocks = [PART] * self.blocks + ["flush"]
        return ["flush"] + ["read"] * reads + blocks + labels + [UBERBLOCK] * 4 + ["flush"] + labels

    def stops(self):
        """Each call of an import that may be refused."""
        calls = self.calls()
        return [ImportStop(calls[:at], call) for at, call in enumerate(calls)]

    def stop(self, stop, letters=""):
        """The image after an import that was stopped and a crash with these letters; a missing one is `k`. The import's
        group is mounted if one of its uberblocks stands. It names a log without a block."""
        if stop.is_mounted or UBERBLOCK in standing(stop.unflushed, letters):
            return Image(self.synced, 1)
        return self.without_parts() if stop.has_written else self

    def without_parts(self):
        """The same image after an import that wrote: it may have written over the parts of a record that isn't whole.
        So at least its other places of the log are read."""
        other = copy.copy(self)
        other.places, other.parts = self.places - self.parts, 0
        return other


def kind_of(call):
    """The kind of a call, as a script names it."""
    return call if call in ("read", "flush") else "write"


class ImportStop:
    """An import that made some calls, and whose next call is refused."""

    def __init__(self, made, call):
        # The kind of the refused call, and its number among the calls of its kind.
        self.kind = kind_of(call)
        self.number = [kind_of(other) for other in [*made, call]].count(self.kind)
        self.refusal = REFUSALS[self.kind]
        # The writes after the last flush, a refused one among them; and whether an uberblock came before that flush.
        flushes = [at for at, other in enumerate(made) if other == "flush"]
        before = flushes[-1] + 1 if flushes else 0
        self.unflushed = [other for other in made[before:] if other != "read"] + [PART] * (self.kind == "write")
        self.has_written = "write" in map(kind_of, [*made, call])
        self.is_mounted = UBERBLOCK in made[:before]
