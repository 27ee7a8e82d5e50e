"""Scripts that are stopped at each device call, with what a plain serial pool answers.

`stops` runs all their rounds, and `stop_rows.py` takes some of them as rows. The answers of a script are those of its
row up to a stop, and after it those of a plain serial pool (`followed_pool.py`). Nothing is taken from a program.

Letters are drawn as Rust's `rand_pcg` draws words (`tools/model/pcg.py`).
"""

import collections
import itertools
import re

from tools.model.layout import block_count
from tools.model.pcg import Pcg32
from tools.model.serial_pool import BLOCKS, LEAST, REFUSALS, Image, Tree, kind_of
from tools.rows.followed_pool import CREATE, IMPORT, Pool
from tools.rows.script_row import BAD_COMMAND, all_strings

# So many unflushed writes meet each string. More of them meet so many strings that are drawn.
FEW, DRAWN = 6, 729


def strings(count, chance):
    """The letters of crashes over so many unflushed writes."""
    if count <= FEW:
        return all_strings(count)
    return [chance.letters(count) for _ in range(DRAWN)]


def few_strings(count, chance):
    """Letters that keep, lose or tear all of so many unflushed writes, and some by chance."""
    return sorted({*(letter * count for letter in "klt"), chance.letters(count)})


def on_less(answer, blocks):
    """An answer on a device that has so many blocks less: a status tells how many are free, and available."""
    return re.sub(r"(free|available) (\d+)", lambda found: f"{found[1]} {int(found[2]) - blocks}", answer)


class Rounds:
    """Rounds, each of which begins with a create, and so with a new pool. They run on the least device, which is made
    fastest. `strings_of` are the letters of a crash. Of the images of a stop each `share`-th has its own import
    stopped, or none if `share` is 0."""

    def __init__(self, title, share, strings_of=strings):
        self.title, self.size, self.share, self.strings_of = title, LEAST, share, strings_of
        self.chance, self.counts = Pcg32.of_text(title), collections.Counter()
        self.image, self.passed, self.numbers = None, 0, []

    def with_imports(self, rounds):
        """These rounds, of which each leaves its image. After each `share`-th come those that stop its import."""
        for round_ in rounds:
            yield round_
            self.passed += 1
            if self.share and self.passed % self.share == 0 and self.image:
                yield from self.stop_imports()

    def stop_imports(self):
        """The import of the last image is stopped at each of its calls."""
        before = self.image
        for stop in before.image.stops():
            for letters in before.endings(stop, few_strings, self.chance):
                pool = before.copy()
                pool.say(f"fail {stop.kind} {stop.number}", "ok")
                pool.stop_import(stop, letters)
                pool.remount(self.numbers)
                self.counts["imports stopped of an image"] += 1
                yield pool.said


class Script(Rounds):
    """A row, and the rounds in which it is stopped."""

    def __init__(self, row, share, strings_of=strings):
        _, size, _, title = row.head.split(" ", 3)
        super().__init__(title, share, strings_of)
        less = block_count(int(size)) - BLOCKS
        self.lines = [(line.decode(), on_less(answer, less)) for line, answer in row.lines if answer is not None]
        shapes = [shape for line, _ in self.lines if line.startswith("begin") for shape in line.split()[2:]]
        self.numbers = sorted({int(shape.split(":")[1]) for shape in shapes if not shape.startswith("n:")})
        self.numbers = self.numbers if len(self.numbers) < 8 else [*self.numbers[:2], *self.numbers[-2:]]

    def all_rounds(self):
        yield from self.whole()
        yield from self.refused_creates()
        yield from self.refused_calls()
        yield from self.stops()

    def split(self):
        """The lines, with each sync as its steps, so that each makes one device call; an import makes more."""
        pool = Pool()
        for line, answer in self.lines:
            word, lines = line.split()[0], [(line, answer)]
            if word == "sync" and answer.startswith("synced"):
                group = answer.split()[1]
                lines = [("close", f"open {int(group) + 1}"), ("quiesce", f"quiesced {group}")]
                lines += [("start", f"syncing {group}")]
            if word in ("sync", "finish") and answer.startswith("synced"):
                steps = len(pool.calls(line, answer))
                lines = [*lines[: 3 * (word == "sync")], *[("step", "more")] * (steps - 1), ("step", answer)]
            for one in lines:
                pool.follow(*one)
                yield one

    def whole(self):
        """The undisturbed row, and the one with its syncs by steps."""
        yield self.lines
        yield list(self.split())

    def refused_creates(self):
        """Each device call of a create fails once. It is made again, and the row answers as undisturbed."""
        for call in create_calls():
            self.counts["creates refused in a script"] += 1
            plan = (f"fail {call.kind} {call.number}", "ok")
            yield [(CREATE, "ok"), plan, (CREATE, call.refusal), *self.lines]

    def refused_calls(self):
        """Each device call after the create fails once."""
        pool, plan, made = Pool(), 0, collections.Counter()
        for at, (line, answer) in enumerate(self.lines):
            for index, call in enumerate(pool.calls(line, answer)):
                made[kind_of(call)] += 1
                one = pool.copy()
                one.said.insert(plan, (f"fail {kind_of(call)} {made[kind_of(call)]}", "ok"))
                yield from self.refuse(one, at, index, call)
            pool.follow(line, answer)
            # A crash clears all plans.
            if line.startswith(("create", "crash")):
                plan, made = at + 1, collections.Counter()

    def refuse(self, pool, at, index, call):
        """Rounds in which this call of a line fails."""
        kind, (line, answer), rest = kind_of(call), self.lines[at], self.lines[at + 1 :]
        self.counts[f"calls refused: {kind}"] += 1
        if line.startswith("import"):
            yield from self.refuse_import(pool, at, index)
            return
        word = line.split()[0]
        if word == "sync":
            pool.run.open += 1
            pool.run.start()
        if word in ("sync", "finish", "step"):
            for _ in range(index):
                pool.run.step()
            pool.run.refuse_step()
        elif word == "log-write":
            pool.run.log_write(is_refused=True)
        pool.say(line, REFUSALS[kind])
        for later, _ in itertools.takewhile(lambda one: one[0].split()[0] not in ("crash", "import", "create"), rest):
            pool.say(later, pool.suspended(later))
        yield from self.crashes(pool)

    def refuse_import(self, before, at, index):
        """An import of the row is refused. If what it mounts is there as before, all later lines are undisturbed."""
        (line, answer), rest = self.lines[at], self.lines[at + 1 :]
        before.leave()
        stop = before.image.stops()[index]
        for letters in before.endings(stop, self.strings_of, self.chance):
            pool = before.copy()
            pool.stop_import(stop, letters)
            pool.said[pool.said.index((IMPORT, stop.refusal))] = (line, stop.refusal)
            self.counts["imports refused in a script"] += 1
            if pool.image.tree is before.image.tree:
                yield [*pool.said, (line, answer), *rest]
            else:
                pool.remount(self.numbers)
                yield pool.said

    def stops(self):
        """The run is stopped before each device call, and at its end."""
        pool = Pool()
        for line, answer in self.split():
            if pool.run and not line.startswith("import") and pool.calls(line, answer):
                yield from self.stop(pool)
            pool.follow(line, answer)
        if pool.run:
            yield from self.stop(pool)

    def stop(self, pool):
        self.counts["stops"] += 1
        yield from self.with_imports(self.crashes(pool))

    def crashes(self, before):
        """A crash with each string, or none, and an import."""
        for letters in [None, *self.strings_of(len(before.run.unflushed), self.chance)]:
            pool = before.copy()
            if letters is not None:
                pool.crash(letters)
            pool.leave()
            self.counts["images"] += 1
            self.image = pool.copy()
            pool.remount(self.numbers)
            yield pool.said


class CreateCall:
    """A call of a create that is refused: its kind, and its number among those of its kind. Before it so many writes
    came after the last flush. `part` tells what they are: the clearing of four labels and then of all blocks, the four
    configs, or the four uberblocks."""

    def __init__(self, part, kind, number, before):
        self.part, self.kind, self.number, self.before = part, kind, number, before
        self.refusal = REFUSALS[kind]
        self.unflushed = before + (kind == "write")


def create_calls():
    """The calls of a create on the least device: it clears four labels and all blocks, flushes, writes four configs,
    flushes, writes four uberblocks, and flushes."""
    calls, writes = [], 0
    for flush, (part, count) in enumerate([("clears", 4 + BLOCKS), ("configs", 4), ("uberblocks", 4)], 1):
        calls += [CreateCall(part, "write", writes + at, at - 1) for at in range(1, count + 1)]
        calls.append(CreateCall(part, "flush", flush, count))
        writes += count
    return calls


class Creates(Rounds):
    """A create over an empty pool that was imported, stopped before each of its calls, and its create again.

    A create that stopped promises nothing. What an import then finds follows from the order of its writes. The pool of
    before is there if one of its labels stands, since it has no tree. The new one is there if one of its uberblocks
    stands. There is no pool else.
    """

    TITLE = "a create over a pool"
    OLD, NEW = Tree(8, b"tank", {}, {}), Tree(4, b"pond", {}, {})

    def __init__(self, share):
        super().__init__(self.TITLE, share)

    def all_rounds(self):
        for call in create_calls():
            self.counts["stops of a create"] += 1
            yield from self.with_imports(self.crashes(call))

    def letters_of(self, call):
        """Each string over up to six writes, and those by chance over seven and before the flush; a few between."""
        is_long = FEW + 1 < call.unflushed and call.kind == "write"
        return (few_strings if is_long else strings)(call.unflushed, self.chance)

    def crashes(self, call):
        for letters in [None, *self.letters_of(call)]:
            pool = Pool()
            pool.say(CREATE, "ok")
            pool.say(IMPORT, "synced 8 open 9 records 0")
            pool.say(f"fail {call.kind} {call.number}", "ok")
            pool.say("create pond 78", call.refusal)
            if letters is not None:
                pool.say(f"crash {letters}".rstrip(), f"crashed {call.unflushed}")
            pool.is_unflushed = letters is None
            tree = self.left(call, letters or "")
            self.counts["images of a create"] += 1
            self.image = None
            if tree:
                # The import of before took a place for its log, and a new pool has none.
                pool.image = Image(tree, int(tree is self.OLD))
                self.image = pool.copy()
                pool.remount(self.numbers)
            else:
                pool.say(IMPORT, "refused 6 NoPool")
            pool.say("create lake 79", "ok")
            pool.say(IMPORT, "synced 8 open 9 records 0")
            pool.say("name", "name lake")
            yield pool.said

    def left(self, call, letters):
        """The tree that an import finds, or None."""
        letters = letters.ljust(call.unflushed, "k")
        if call.part == "clears":
            # A label of before is gone if its clearing was made and isn't lost, or if it is torn.
            gone = [letter == "t" or letter == "k" and at < call.before for at, letter in enumerate(letters[:4])]
            return None if gone.count(True) == 4 else self.OLD
        return self.NEW if call.part == "uberblocks" and "k" in letters[: call.before] else None


def is_whole(row):
    """Whether a row is one that can be stopped: valid commands alone, on a pool that is made first, with no plan."""
    lines = [(line.decode(errors="replace"), answer) for line, answer in row.lines if answer is not None]
    words = [line.split()[0] for line, _ in lines]
    is_valid = not any(BAD_COMMAND in answer for _, answer in lines) and "fail" not in words
    return is_valid and words.count("create") == 1 and lines[0] == (CREATE, "ok")
