"""Frames as docs/FRAMES.md, spells them, and frames that are none."""

import io
import struct
import unittest

from tools.model.formats import TEXT
from tools.model.frames import (
    ANSWERS_TOO_LONG,
    BAD_CALL,
    BAD_KIND,
    BAD_LENGTH,
    BAD_RECORD,
    BAD_VERSION,
    CALLS,
    CUT_OFF,
    SURPLUS,
    Answer,
    Opened,
    Refused,
    Request,
    Server,
    Unopened,
    answers_frame,
    frame,
    opened_frame,
    read_answers,
    read_opening,
    read_requests,
    refused,
    refused_frame,
    requests_frame,
    unopened_frame,
)

CREATE = [("c", 1, 0, b"")]

REQUESTS = {
    "15000000 0100 0100 01000000 0500000000000000 06": Request(5, "status", ()),
    "30000000 0100 0100 01000000 0200000000000000 01": Request(2, "transact", CREATE),
}

ANSWERS = {
    "25000000 0100 0200 01000000 0200000000000000 01 0300000000000000 0900000000000000": Answer(
        2, 1, struct.pack("<QQ", 3, 9)
    ),
    "26000000 0100 0200 01000000 0200000000000000 00 10 0000000000000000 0000000000000000": refused(2, 16),
}

# That of a new pool with guid 77, and that of a file that isn't there.
OPENINGS = {
    "24000000 0100 0400 00000000 4d00000000000000 0800000000000000 0000000000000000": Opened(77, 8, 0),
    "4a000000 0100 0500 00000000 0000000000000000 0000000000000000 02000000 26000000": Unopened(
        0, 0, 0, 2, "No such file or directory (os error 2)"
    ),
}

# One request of each call.
EACH = [
    Request(number, call, CREATE if call.startswith("transact") else (1, 2, 3)[: {"read": 3, "length": 1}.get(call, 2)])
    for number, call in enumerate(("transact", "transact_durably", "read", "length", "objects", "durable"))
] + [Request(7, call, ()) for call in ("status", "flush", "sync", "name")]


class Frames(unittest.TestCase):
    def test_requests_are_spelled_so(self):
        for spelled, request in REQUESTS.items():
            self.assertIn(f"`{spelled}`", TEXT)
            self.assertTrue(requests_frame([request]).startswith(bytes.fromhex(spelled)))

    def test_answers_are_spelled_so(self):
        for spelled, answer in ANSWERS.items():
            self.assertIn(f"`{spelled}`", TEXT)
            self.assertEqual(answers_frame([answer]), bytes.fromhex(spelled))
            self.assertEqual(read_answers(bytes.fromhex(spelled)), [answer])
        self.assertIn("`0c000000 0100 0300 06000000`", TEXT)
        self.assertEqual(refused_frame(6), bytes.fromhex("0c000000 0100 0300 06000000"))

    def test_openings_are_spelled_so(self):
        for spelled, opening in OPENINGS.items():
            self.assertIn(f"`{spelled}`", TEXT)
            written = opened_frame(opening) if isinstance(opening, Opened) else unopened_frame(opening)
            cause = b"" if isinstance(opening, Opened) else opening.cause.encode()
            self.assertEqual(written, bytes.fromhex(spelled) + cause)
            self.assertEqual(read_opening(written), opening)

    def test_what_is_written_is_read(self):
        self.assertEqual({request.call for request in EACH}, set(CALLS))
        self.assertEqual(read_requests(requests_frame(EACH)), EACH)
        self.assertEqual(read_requests(requests_frame([])), [])

    def refuses(self, number, content):
        with self.assertRaises(Refused) as caught:
            read_requests(content)
        self.assertEqual(caught.exception.number, number)

    def test_what_is_none_is_refused(self):
        whole = requests_frame(EACH)
        status = requests_frame([Request(5, "status", ())])
        self.refuses(CUT_OFF, b"\x0c\0\0")
        self.refuses(BAD_LENGTH, whole[:-1])
        self.refuses(BAD_LENGTH, whole + b"\0")
        self.refuses(BAD_VERSION, status[:4] + b"\2" + status[5:])
        self.refuses(BAD_KIND, status[:6] + b"\2" + status[7:])
        self.refuses(CUT_OFF, status[:8] + b"\2" + status[9:])
        self.refuses(SURPLUS, status[:8] + b"\0" + status[9:])
        self.refuses(BAD_CALL, status[:-1] + b"\x0b")
        self.refuses(BAD_CALL, status[:-1] + b"\0")
        self.refuses(BAD_RECORD, frame(1, 1, struct.pack("<QB", 1, 1)))
        self.refuses(BAD_RECORD, requests_frame([Request(1, "transact", [])]))

    def test_the_most_requests(self):
        """docs/FRAMES.md: 52,428 requests, and 12 reads of whole objects."""
        self.assertEqual(len(read_requests(requests_frame([Request(1, "name", ())] * 52_428))), 52_428)
        self.refuses(ANSWERS_TOO_LONG, requests_frame([Request(1, "name", ())] * 52_429))
        strip = Request(1, "read", (1, 0, 338_688))
        self.assertEqual(len(read_requests(requests_frame([strip] * 12))), 12)
        self.refuses(ANSWERS_TOO_LONG, requests_frame([strip] * 13))

    def test_the_longest_read(self):
        """A frame has 4,194,304 bytes, of which 92 are no bytes of the object. No answer is longer than an object."""
        for high, is_long in [(4_194_212, False), (4_194_213, True), (28_449_792, True), (2**64 - 1, True)]:
            one = requests_frame([Request(1, "read", (1, 0, high))])
            if is_long:
                self.refuses(ANSWERS_TOO_LONG, one)
            else:
                self.assertEqual(len(read_requests(one)), 1)


class Serving(unittest.TestCase):
    def test_a_stream_is_opened_and_answered_frame_by_frame(self):
        source = io.BytesIO(requests_frame(EACH) + requests_frame([Request(5, "status", ())])[:-1] + b"\x0b")
        sink = io.BytesIO()
        Server().serve(source, sink)
        opening, whole = sink.getvalue()[:36], sink.getvalue()[36:]
        self.assertEqual(read_opening(opening), Opened(77, 8, 0))
        (length,) = struct.unpack_from("<I", whole)
        answers = read_answers(whole[:length])
        self.assertEqual([answer.number for answer in answers], [request.number for request in EACH])
        self.assertEqual([answer.came for answer in answers], [1, 0, 3, 4, 5, 7, 6, 8, 9, 10])
        self.assertEqual(read_answers(whole[length:]), BAD_CALL)
