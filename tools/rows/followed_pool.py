"""A plain serial pool that follows the lines of a script, and knows the device calls that each makes."""

import copy

from tools.model.contents import Entry, digest
from tools.model.layout import MIB, NAMED
from tools.model.serial_pool import Image, Run, Tree

CREATE, IMPORT = "create tank 77", f"import {MIB}"


class Pool:
    """A plain serial pool that follows the lines of a row: a run, or the image that it left."""

    def __init__(self):
        self.image, self.run, self.open_ones, self.said = None, None, {}, []
        self.is_unflushed = False

    def copy(self):
        """Another one, which goes on by itself."""
        one = copy.copy(self)
        one.said, one.open_ones = list(self.said), dict(self.open_ones)
        if self.run:
            one.run = copy.copy(self.run)
            one.run.sync = copy.copy(self.run.sync)
            for name in ["entries", "begun", "log", "unflushed"]:
                setattr(one.run, name, list(getattr(self.run, name)))
        return one

    def say(self, line, answer):
        self.said.append((line, answer))

    def leave(self):
        """An import takes the device of a pool that is there as it is: with its unflushed writes, until its first
        flush."""
        if self.run:
            self.is_unflushed = bool(self.run.unflushed)
            self.image, self.run = self.run.crash(), None

    def mount(self):
        """An import that ends: its answer."""
        self.leave()
        self.run, self.open_ones = Run(self.image.synced), {}
        return f"synced {self.run.tree.group} open {self.run.open} records {len(self.image.entries)}"

    def calls(self, line, answer):
        """The device calls of a line with this answer, except a create."""
        word, one = line.split()[0], self.copy()
        if word == "import" and answer.startswith("synced"):
            one.leave()
            return one.image.calls()
        if word == "sync" and answer.startswith("synced"):
            one.run.start()
        if word in ("sync", "finish") and answer.startswith("synced"):
            return one.run.sync.calls[one.run.sync.made :]
        if word == "step" and not answer.startswith("refused"):
            return [one.run.sync.calls[one.run.sync.made]]
        return {"logged": ["write"], "flushed": ["flush"]}.get(answer.split()[0], [])

    def begin(self, shapes, answer):
        """A transaction that begins, whose bytes come with its commit."""
        self.open_ones[answer.split()[1]] = self.run.begin(ops_of(shapes))

    def commit(self, words, answer):
        contents, entry = iter(words[1:]), self.open_ones.pop(words[0])
        ops = [(*op[:3], content_of(next(contents)) if op[0] in "wn" else b"") for op in entry.ops]
        filled = Entry(entry.group, ops)
        self.run.begun[self.run.begun.index(entry)] = filled
        same(answer, f"entry {self.run.commit(filled)} group {entry.group}")

    def sync(self):
        while not self.run.step():
            pass
        return f"synced {self.run.tree.group}"

    def follow(self, line, answer):
        """A line with the answer that the row has."""
        self.say(line, answer)
        word, *words = line.split()
        if answer.startswith("refused"):
            return
        if word == "create":
            self.image, self.run = Image(Tree(4, words[0].encode(), {}, {})), None
        elif word == "import":
            same(answer, self.mount())
        elif word == "begin":
            self.begin(words[1:], answer)
        elif word == "commit":
            self.commit(words, answer)
        elif word == "abort":
            self.run.begun.remove(self.open_ones.pop(words[0]))
        elif word == "close":
            self.run.open += 1
        elif word == "start":
            self.run.start()
        elif word == "step":
            self.run.step()
        elif word == "finish":
            same(answer, self.sync())
        elif word == "sync":
            self.run.open += 1
            self.run.start()
            same(answer, self.sync())
        elif word == "log-write":
            same(answer, f"logged {self.run.log_write()}")
        elif word == "log-flush":
            same(answer == "flushed", self.run.log_flush())
        elif word == "crash":
            same(answer, f"crashed {len(self.run.unflushed) if self.run else 0}")
            if self.run:
                self.image, self.run, self.is_unflushed = self.run.crash("".join(words)), None, False

    def show(self, numbers):
        """What the pool has, by its name, its digest and the lengths of these objects."""
        name, objects = self.run.name(), self.run.mounted
        self.say("name", f"name {name.decode()}")
        self.say("digest", f"digest {digest(name, objects)}")
        for number in numbers:
            # No object has the number of the name, or one above it.
            missing = "refused 9 NoObject" if number < NAMED else "refused 11 BadRange"
            self.say(f"length {number}", f"length {len(objects[number])}" if number in objects else missing)

    def crash(self, letters):
        self.say(f"crash {letters}".rstrip(), f"crashed {len(self.run.unflushed)}")
        self.image, self.run, self.is_unflushed = self.run.crash(letters), None, False

    def remount(self, numbers):
        """An import that ends, and what it shows."""
        self.say(IMPORT, self.mount())
        self.show(numbers)

    def endings(self, stop, strings_of, chance):
        """How an import that is stopped goes on: by no crash, or one with letters. None comes before the first flush if
        it left writes of the run before, and after a read."""
        is_early = stop.kind == "read" or self.is_unflushed and (stop.kind, stop.number) == ("flush", 1)
        return [None, *([] if is_early else strings_of(len(stop.unflushed), chance))]

    def stop_import(self, stop, letters):
        """An import whose next call is refused, and a crash, or none if there are no letters."""
        self.leave()
        self.say(IMPORT, stop.refusal)
        if letters is not None:
            self.say(f"crash {letters}".rstrip(), f"crashed {len(stop.unflushed)}")
        self.image = self.image.stop(stop, letters or "")

    def suspended(self, line):
        """The answer of a suspended pool."""
        word, *words = line.split()
        if word == "name":
            return f"name {self.run.name().decode()}"
        if word == "status":
            return self.run.status()
        if word == "durable":
            return "durable yes" if self.run.is_durable(*map(int, words)) else "durable no"
        return "refused 5 Suspended"


def ops_of(shapes):
    """The operations of these shapes, with zeros for their bytes."""
    ops = []
    for shape in shapes:
        kind, *words = shape.split(":")
        number, place, length = [NAMED, 0, *words] if kind == "n" else [*words, "0", "0"][:3]
        ops.append((kind, int(number), int(place), b"\0" * int(length)))
    return ops


def content_of(word):
    count, at, letter = word[1:].partition(":") if word.startswith("@") else ("", "", "")
    return letter.encode() * int(count) if at else word.encode()


def same(found, wanted):
    assert found == wanted, (found, wanted)
