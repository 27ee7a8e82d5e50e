import unittest

from tools.model.charges import estimate
from tools.model.contents import Entry, conflict, digest, is_cut
from tools.model.formats import table
from tools.model import layout
from tools.model.layout import CHARGE, block_count
from tools.model.serial_pool import BLOCKS, REFUSALS, Run, Tree
from tools.rows.followed_pool import Pool, ops_of
from tools.rows.limit_rows import full_log, long_record_without_space, many_objects
from tools.rows.script_row import Row, all_strings, rows_with
from tools.rows.stopped_rows import Script, is_whole

ASKED = {"status", "name", "digest", "length", "durable", "read"}


def answer_of(pool, line):
    """What a serial pool answers to a question."""
    word, *words = line.split()
    run, numbers = pool.run, [int(one) for one in words]
    objects = run.contents()
    if word == "status":
        return run.status()
    if word == "name":
        return f"name {run.name().decode()}"
    if word == "digest":
        return f"digest {digest(run.name(), objects)}"
    if word == "durable":
        return "durable yes" if run.is_durable(*numbers) else "durable no"
    content = objects.get(numbers[1 if word == "read" else 0])
    if content is None:
        return "refused 9 NoObject"
    if word == "length":
        return f"length {len(content)}"
    content = content[numbers[2] : numbers[3]]
    return f"bytes {len(content)} {content.hex()}".rstrip()


def is_shrinking(objects, ops):
    """Whether a plan only removes objects, or sets lengths that aren't above those that are there."""
    return all(op[0] == "d" or (op[0] == "l" and op[1] in objects and op[2] <= len(objects[op[1]])) for op in ops)


def admission(run, ops, limit, more):
    """Whether a plan passes the limit of dirty bytes, or lacks blocks of a device that has so many more, or neither."""
    blocks = estimate(Entry(0, ops))
    if CHARGE * (run.reserved() + blocks) > limit:
        return "refused 17 Throttled"
    kept = 0 if is_shrinking(run.contents(), ops) else 16
    return "refused 16 NoSpace" if blocks + kept > run.available() + more else "tx"


def refused_or_word(answer):
    """A refusal, or the first word of another answer."""
    return answer if answer.startswith("refused") else answer.split()[0]


class Rows(unittest.TestCase):
    """Scripts whose answers were written by hand, followed by a serial pool. It refuses an answer of a commit, an
    import, a sync, the log or a crash that isn't its own."""

    def follow(self, row):
        """Follows a row: how many questions it had."""
        pool, asked, limit = Pool(), 0, 0
        more = block_count(int(row.head.split()[1])) - BLOCKS
        for line, answer in Script(row, share=0).lines:
            if line.startswith("import"):
                limit = int(line.split()[1])
            if line.startswith("begin") and answer.startswith(("tx", "refused 16", "refused 17")):
                told = admission(pool.run, ops_of(line.split()[2:]), limit, more)
                self.assertEqual(told, refused_or_word(answer), (row.head, line))
            is_told = answer == "refused 9 NoObject" or not answer.startswith("refused")
            if line.split()[0] in ASKED and is_told:
                asked += 1
                self.assertEqual(answer_of(pool, line), answer, (row.head, line))
            if line == "log-write":
                self.assertEqual(pool.run.log_write_refusal() or "logged", refused_or_word(answer), (row.head, line))
            pool.follow(line, answer)
            if line == "step" and not answer.startswith("refused"):
                asked += 1
                ends = "more" if pool.run.sync else f"synced {pool.run.tree.group}"
                self.assertEqual(ends, answer, (row.head, line))
        return asked

    def test_rows_by_hand(self):
        rows = [row for row in rows_with("") if is_whole(row)]
        self.assertGreater(sum(map(self.follow, rows)), 500)

    def test_rows_at_a_limit(self):
        rows = [row for make in (many_objects, full_log, long_record_without_space) for row in make()]
        self.assertGreater(sum(map(self.follow, rows)), 100)

    def test_the_first_path(self):
        row = Row("the first path")
        for line, answer in table("| line | answer |", 1):
            row.say(line.strip("`"), answer)
        self.assertEqual(self.follow(row), 1)

    def test_refusals_are_those_of_the_table(self):
        named = {f"refused {number} {name}" for number, name, _ in table("| n | name | when |")}
        for refusal in REFUSALS.values():
            self.assertIn(refusal, named)
        for row in rows_with(""):
            for _, answer in row.lines:
                if (answer or "").startswith("refused"):
                    self.assertIn(" ".join(answer.split()[:3]), named | {"refused 7 Damaged"}, row.head)


class LongRecords(unittest.TestCase):
    """A pool with object 1, whose record is in the first log block, and a commit with a record of four parts."""

    def setUp(self):
        self.run = Run(Tree(8, b"tank", {}, {}))
        self.commit("c", 1, 0, b"")
        self.run.log_write()
        self.commit("w", 1, 0, b"a" * 12_000)

    def commit(self, *op):
        self.run.commit(self.run.begin([op]))

    def sync(self):
        self.run.open += 1
        self.run.start()
        while not self.run.step():
            pass

    def test_each_part_is_a_log_write(self):
        self.commit("d", 1, 0, b"")
        self.assertEqual([self.run.log_write() for _ in range(5)], [0, 0, 0, 1, 1])
        self.assertEqual(self.run.log_write_refusal(), "refused 20 NotReady")
        blocks = [(block.begins, block.ends) for block in self.run.log]
        self.assertEqual(blocks, [([0], [0]), ([1], []), ([], []), ([], []), ([], [1]), ([2], [2])])

    def test_durable_once_the_last_part_is_flushed(self):
        for parts in range(5):
            self.assertEqual(self.run.is_durable(1, 9), False)
            self.assertEqual(self.run.log_flush(), True)
            self.assertEqual(self.run.is_durable(1, 9), parts == 4)
            if parts < 4:
                self.run.log_write()

    def test_all_parts_stand_or_the_record_is_gone(self):
        for _ in range(4):
            self.run.log_write()
        for letters in all_strings(5):
            image = self.run.crash(letters)
            stand = (letters + "l").replace("t", "l").index("l")
            self.assertEqual(len(image.entries), (0 if stand == 0 else 2 if stand == 5 else 1), letters)
            self.assertEqual((image.places, image.parts), (stand + 1, stand - 1 if 0 < stand < 5 else 0), letters)

    def test_a_part_that_is_refused(self):
        self.run.log_write()
        self.run.log_write(is_refused=True)
        for letters, entries in {"kkk": 1, "kkt": 1, "kll": 1, "lkk": 0}.items():
            self.assertEqual(len(self.run.crash(letters).entries), entries, letters)

    def test_a_begun_record_is_kept_over_syncs(self):
        self.run.log_write()
        free = []
        for _ in range(3):
            self.sync()
            free.append(self.run.free())
            self.assertEqual((self.run.header, self.run.log_write_refusal()), (1, None))
            self.assertEqual(self.run.log_write(), len(free) // 3)
        # The tree has six blocks, and the next log block is taken.
        self.assertEqual(free, [384 - 6 - 1 - parts for parts in (1, 2, 3)])
        self.sync()
        self.assertEqual((self.run.header, self.run.free()), (5, 384 - 6 - 1))

    def test_an_import_may_write_over_parts(self):
        self.run.log_write()
        image = self.run.crash()
        stops = {(stop.kind, stop.number): stop for stop in image.stops()}
        self.assertEqual((image.places, image.parts), (3, 1))
        self.assertIs(image.stop(stops["read", 9]), image)
        after = image.stop(stops["write", 1])
        self.assertEqual((after.places, after.parts, after.tree), (2, 0, image.tree))


class Charges(unittest.TestCase):
    def test_charges_that_the_load_names(self):
        """docs/SCRIPTS.md, "The load": 8,192 bytes of a create, and those of a write within a record or over two."""
        ops = [("c", 1, 0, b""), ("w", 1, 0, b"x" * 64), ("w", 1, 4_000, b"x" * 64)]
        self.assertEqual([CHARGE * estimate(Entry(9, [op])) for op in ops], [8_192, 20_480, 24_576])


class Conflicts(unittest.TestCase):
    def entries(self, *ops):
        return [Entry(9, [op]) for op in ops]

    def test_writes_conflict_if_they_touch_a_common_byte(self):
        one, next_one, far = self.entries(("w", 1, 0, b"abcd"), ("w", 1, 3, b"x"), ("w", 1, 4, b"x"))
        other_object, whole = self.entries(("w", 2, 0, b"abcd"), ("l", 1, layout.MAX_LENGTH, b""))
        self.assertTrue(conflict(one, next_one) and conflict(one, whole) and conflict(whole, far))
        self.assertFalse(conflict(one, far) or conflict(one, other_object))

    def test_a_cut_leaves_no_earlier_one_out_that_conflicts(self):
        entries = self.entries(("c", 1, 0, b""), ("c", 2, 0, b""), ("w", 1, 0, b"x"))
        self.assertTrue(is_cut(entries, [True, False, True]))
        self.assertFalse(is_cut(entries, [False, True, True]))
