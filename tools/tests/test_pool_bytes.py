import hashlib
import unittest

from tools.model.charges import record_size
from tools.model.contents import Entry
from tools.model.formats import TEXT, table
from tools.model.layout import LOG_RECORD_MAX, LOG_ROOM, NAMED
from tools.model.pool_bytes import (
    Uberblock,
    config,
    log_block,
    long_length,
    parts_of,
    read_config,
    read_log_payload,
    read_record,
    read_records,
    record,
    uberblock,
)
from tools.model.pool_image import Image

# Records that docs/FORMATS.md spells, each with its group, ordinal and operation.
RECORDS = {
    "1b000000 0900000000000000 0000000000000000 0100 01 01000000": (9, 0, ("c", 1, 0, b"")),
    "1f000000 0900000000000000 0000000000000000 0100 05 04000000 706f6e64": (9, 0, ("n", NAMED, 0, b"pond")),
    "2b000000 0a00000000000000 0100000000000000 0100 03 01000000 6400000000000000 04000000 7778797a": (
        10,
        1,
        ("w", 1, 100, b"wxyz"),
    ),
}


class Records(unittest.TestCase):
    def test_the_document_has_these_records(self):
        for spelled in RECORDS:
            self.assertIn(f"`{spelled}`", TEXT)

    def test_records_are_written_so(self):
        for spelled, (group, ordinal, op) in RECORDS.items():
            self.assertEqual(record(group, ordinal, [op]), bytes.fromhex(spelled))

    def test_records_are_read_so(self):
        for spelled, (group, _, op) in RECORDS.items():
            self.assertEqual(read_record(bytes.fromhex(spelled)[4:]), Entry(group, [op]))

    def test_a_record_that_goes_on_or_ends_early_is_none(self):
        for spelled in RECORDS:
            content = bytes.fromhex(spelled)[4:]
            self.assertIsNone(read_record(content + b"\0"))
            self.assertIsNone(read_record(content[:-1]))

    def test_the_lengths_of_records(self):
        for spelled, (group, _, op) in RECORDS.items():
            self.assertEqual(record_size(Entry(group, [op])), len(bytes.fromhex(spelled)))

    def test_the_longest_records(self):
        """docs/FORMATS.md, 8: one write, and creations and removals."""
        self.assertEqual(record_size(Entry(9, [("w", 1, 0, bytes(65_497))])), LOG_RECORD_MAX)
        self.assertEqual(record_size(Entry(9, [("c", 1, 0, b""), ("d", 1, 0, b"")] * 6_551)), LOG_RECORD_MAX - 4)


# The front of the record of a write of 65,497 bytes, and the fronts of the payloads of its first log block and of its
# last one, as docs/FORMATS.md spells them.
LONG = "00000100 0900000000000000 0100000000000000 0100 03 01000000 0000000000000000 d9ff0000"
FIRST = "0100000000000000 0020400000000000 a80f000000000000"
LAST = "0100000000000000 0020410000000000 8005000000000000"


class LogBlocks(unittest.TestCase):
    def setUp(self):
        self.record = record(9, 1, [("w", 1, 0, b"a" * 65_497)])
        self.parts = parts_of(self.record)

    def payload(self, number, used=None):
        """The payload of the log block of a part. The first part lies in block 1."""
        return log_block(77, 9, 1 + number, 1, 4_194_304 + 4_096 * (number + 2), self.parts[number], used)[64:]

    def test_the_document_has_these_fronts(self):
        for spelled in (LONG, FIRST, LAST):
            self.assertIn(f"`{spelled}`", TEXT)

    def test_fronts_of_a_long_record_and_its_blocks(self):
        self.assertEqual(self.record[:39], bytes.fromhex(LONG))
        self.assertEqual(self.payload(0)[:24], bytes.fromhex(FIRST))
        self.assertEqual(self.payload(16)[:24], bytes.fromhex(LAST))

    def test_parts_fill_their_blocks_but_the_last(self):
        self.assertEqual([len(part) for part in self.parts], [4_008] * 16 + [1_408])
        lengths = {4_008: [4_008], 4_009: [4_008, 1], 8_016: [4_008] * 2, 8_017: [4_008, 4_008, 1]}
        for length, wanted in lengths.items():
            self.assertEqual([len(part) for part in parts_of(bytes(length))], wanted)

    def test_payloads_are_read_so(self):
        self.assertEqual(read_log_payload(self.payload(16)), (1, 4_268_032, self.parts[16]))
        self.assertEqual(read_log_payload(self.payload(0)).used, self.record[:4_008])

    def test_payloads_of_another_form_are_none(self):
        for used in (0, 1_407, LOG_ROOM + 1, 2**64 - 1):
            self.assertIsNone(read_log_payload(self.payload(16, used)), used)
        self.assertEqual(len(read_log_payload(self.payload(16, 1_409)).used), 1_409)

    def test_first_parts_tell_the_length_of_a_long_record(self):
        self.assertEqual(long_length(self.parts[0]), 65_536)
        for length in (4_009, 8_016, 65_536):
            self.assertEqual(long_length(record(9, 0, [], length).ljust(LOG_ROOM)), length)
        for length in (0, 22, 4_008, 65_537, 2**32 - 1):
            self.assertIsNone(long_length(record(9, 0, [], length).ljust(LOG_ROOM)), length)
        self.assertIsNone(long_length(self.parts[0][:-1]))

    def test_whole_records_are_read_so(self):
        one, other = (record(9, ordinal, [("c", ordinal, 0, b"")]) for ordinal in (1, 2))
        self.assertEqual([entry.ops[0][1] for entry in read_records(one + other)], [1, 2])
        for content in (one + b"\0", one + other[:-1], one[:3], self.parts[0], self.parts[1]):
            self.assertIsNone(read_records(content))


class NewFiles(unittest.TestCase):
    """Whole files by their sums, which come from a writer that shares no code with this one."""

    def test_sums(self):
        for words, checksum in table("| command | SHA-256 of FILE |"):
            _, _, name, guid, size, *moment = words.split()
            made = Image(bytearray(int(size)))
            made.put_configs(config(int(guid), 4, int(size), name.encode()))
            made.put_uberblock(uberblock(4, int(guid), moment=int(moment[1]) if moment else 0))
            self.assertEqual(hashlib.sha256(made.content).hexdigest(), checksum, words)


class Labels(unittest.TestCase):
    def test_a_flipped_bit_makes_no_config(self):
        block = config(77, 4, 2**23, b"tank")
        self.assertEqual(read_config(block, 2**23), (77, 4, b"tank"))
        self.assertIsNone(read_config(block, 2**24))
        for at in (0, 8, 16, 24, 32, 64, 72, 80, 88, 4_095):
            self.assertIsNone(read_config(block[:at] + bytes([block[at] ^ 1]) + block[at + 1 :], 2**23), at)

    def test_names_outside_their_limits_make_no_config(self):
        for name in (b"", b"4tank", b"a" * 65, b"a b", b"-a"):
            self.assertIsNone(read_config(config(77, 4, 2**23, name), 2**23), name)

    def test_limits_of_an_uberblock(self):
        limits = {"group": [3, 2**60 + 1], "import_number": [2**60 + 1], "log_number": [2**60 + 1]}
        for field, values in {**limits, "version": [0, 3, 2**32 + 1]}.items():
            for value in values:
                odd = uberblock(4, 77)._replace(**{field: value})
                self.assertIsNone(Uberblock.read(odd.bytes()), (field, value))
        for group in (4, 2**60):
            self.assertEqual(Uberblock.read(uberblock(group, 77).bytes()), uberblock(group, 77))

    def test_both_versions_are_read_and_the_newer_one_is_written(self):
        self.assertEqual(uberblock(4, 77).version, 2)
        for version in (1, 2):
            self.assertEqual(Uberblock.read(uberblock(4, 77, version=version).bytes()).version, version)
