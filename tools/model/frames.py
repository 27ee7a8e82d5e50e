"""Frames of requests and of answers, written and read, and a server that stands in for the program's
(docs/FRAMES.md)."""

import collections
import struct

from tools.model import layout
from tools.model.layout import LAST, LOG_RECORD_MAX, OBJECTS
from tools.model.pool_bytes import read_record, record

VERSION, HEAD, MAX_FRAME = 1, 12, 4_194_304
REQUESTS, ANSWERS, REFUSAL, OPENED, UNOPENED = range(1, 6)

# The calls by their names, and the fields of each besides a record.
CALLS = {
    "transact": 1,
    "transact_durably": 2,
    "read": 3,
    "length": 4,
    "objects": 5,
    "status": 6,
    "durable": 7,
    "flush": 8,
    "sync": 9,
    "name": 10,
}
NAMES = {number: name for name, number in CALLS.items()}
FIELDS = {"read": "<IQQ", "length": "<I", "objects": "<II", "durable": "<QQ"}

# The refusals of a frame.
CUT_OFF, BAD_LENGTH, BAD_VERSION, BAD_KIND, BAD_CALL, BAD_RECORD, SURPLUS, ANSWERS_TOO_LONG = range(2, 10)

# A request: its number, the name of its call, and what this needs: the operations of a transaction, else its fields.
Request = collections.namedtuple("Request", "number call needs")

# An answer: the number of its request, what came of it as the document numbers it, and what follows that.
Answer = collections.namedtuple("Answer", "number came content")


class Refused(Exception):
    """The frame is refused, with this number."""

    def __init__(self, number):
        super().__init__(number)
        self.number = number


def frame(kind, count, items):
    return struct.pack("<IHHI", HEAD + len(items), VERSION, kind, count) + items


# Requests


def request_bytes(request):
    number, call, needs = request
    if call.startswith("transact"):
        content = record(0, 0, needs)
    else:
        content = struct.pack(FIELDS.get(call, "<"), *needs)
    return struct.pack("<QB", number, CALLS[call]) + content


def requests_frame(requests):
    return frame(REQUESTS, len(requests), b"".join(request_bytes(request) for request in requests))


class Cursor:
    """Bytes that are read from the front."""

    def __init__(self, content):
        self.content, self.at = content, 0

    def left(self):
        return len(self.content) - self.at

    def take(self, count):
        if self.left() < count:
            raise Refused(CUT_OFF)
        self.at += count
        return self.content[self.at - count : self.at]

    def numbers(self, form):
        return struct.unpack(form, self.take(struct.calcsize(form)))

    def record(self):
        """The operations of the log record that stands here."""
        if self.left() < 4:
            raise Refused(BAD_RECORD)
        (length,) = struct.unpack_from("<I", self.content, self.at)
        is_there = 22 < length <= min(self.left(), LOG_RECORD_MAX)
        entry = read_record(self.content[self.at + 4 : self.at + length]) if is_there else None
        if entry is None:
            raise Refused(BAD_RECORD)
        self.at += length
        return entry.ops


def read_request(cursor):
    number, tag = cursor.numbers("<Q") + cursor.numbers("<B")
    if tag not in NAMES:
        raise Refused(BAD_CALL)
    call = NAMES[tag]
    needs = cursor.record() if call.startswith("transact") else cursor.numbers(FIELDS.get(call, "<"))
    return Request(number, call, needs)


def room_of(request):
    """The bytes that are kept for an answer."""
    if request.call == "read":
        _, low, high = request.needs
        return 80 + min(max(high - low, 0), layout.MAX_LENGTH)
    if request.call == "objects":
        first, past = request.needs
        return 80 + 12 * min(max(past - first, 0), OBJECTS)
    return 80


def read_requests(content):
    """The requests of a frame. It is refused by `Refused`."""
    cursor = Cursor(content)
    (length,) = cursor.numbers("<I")
    if length != len(content) or length > MAX_FRAME:
        raise Refused(BAD_LENGTH)
    if cursor.numbers("<H") != (VERSION,):
        raise Refused(BAD_VERSION)
    if cursor.numbers("<H") != (REQUESTS,):
        raise Refused(BAD_KIND)
    (count,) = cursor.numbers("<I")
    requests = []
    for _ in range(count):
        requests.append(read_request(cursor))
    if cursor.left():
        raise Refused(SURPLUS)
    if HEAD + sum(map(room_of, requests)) > MAX_FRAME:
        raise Refused(ANSWERS_TOO_LONG)
    return requests


# Answers


def refusal_bytes(number, kind=0, address=0):
    return struct.pack("<BQQ", number, kind, address)


def refused(number, refusal, kind=0, address=0):
    """The answer to a request that is refused."""
    return Answer(number, 0, refusal_bytes(refusal, kind, address))


def string(content):
    return struct.pack("<I", len(content)) + content


def answers_frame(answers):
    items = b"".join(struct.pack("<QB", answer.number, answer.came) + answer.content for answer in answers)
    return frame(ANSWERS, len(answers), items)


def refused_frame(number):
    return frame(REFUSAL, number, b"")


def read_answers(content):
    """The answers of a frame, or the number of the refusal of the frame that they would answer."""
    length, version, kind, count = struct.unpack_from("<IHHI", content)
    assert length == len(content) <= MAX_FRAME and version == VERSION
    if kind == REFUSAL:
        assert length == HEAD
        return count
    assert kind == ANSWERS
    cursor, answers = Cursor(content), []
    cursor.take(HEAD)
    for _ in range(count):
        number, came = cursor.numbers("<Q") + cursor.numbers("<B")
        start = cursor.at
        if came in (3, 10):
            cursor.take(cursor.numbers("<I")[0])
        elif came == 5:
            cursor.take(12 * cursor.numbers("<I")[0])
        else:
            cursor.take({0: 17, 1: 16, 2: 16, 4: 8, 6: 56, 7: 1, 8: 0, 9: 8, 11: 33}[came])
        answers.append(Answer(number, came, content[start : cursor.at]))
    assert not cursor.left()
    return answers


# The opening

# What a served pool says of itself: its guid, its synced group, and how many records its import replayed.
Opened = collections.namedtuple("Opened", "guid synced records")

# Why no pool is served: the number of a refusal, or 0 if the file can't be used; the kind and the address of `Damaged`;
# the system's error number or 0; and the cause as a text.
Unopened = collections.namedtuple("Unopened", "refusal kind address error cause")


def opened_frame(opened):
    return frame(OPENED, 0, struct.pack("<3Q", *opened))


def unopened_frame(unopened):
    refusal, kind, address, error, cause = unopened
    return frame(UNOPENED, refusal, struct.pack("<QQI", kind, address, error) + string(cause.encode()))


def read_opening(content):
    """What an opening says: it is an `Opened` or an `Unopened`."""
    length, version, kind, number = struct.unpack_from("<IHHI", content)
    assert length == len(content) <= MAX_FRAME and version == VERSION
    cursor = Cursor(content)
    cursor.take(HEAD)
    if kind == OPENED:
        assert number == 0
        opening = Opened(*cursor.numbers("<3Q"))
    else:
        assert kind == UNOPENED
        fields = cursor.numbers("<QQI")
        opening = Unopened(number, *fields, cursor.take(*cursor.numbers("<I")).decode())
    assert not cursor.left()
    return opening


# A server


class Server:
    """A pool in memory that answers frames. It has room for all and loses nothing, so every commit is durable at a
    flush. It is for the tests of clients."""

    def __init__(self, name=b"tank", group=9, guid=77, records=0):
        self.name, self.objects, self.group, self.ordinal, self.flushed = name, {}, group, 0, 0
        self.guid, self.records = guid, records

    def opening(self):
        return opened_frame(Opened(self.guid, self.group - 1, self.records))

    def answer(self, content):
        """The frame that answers these bytes."""
        try:
            requests = read_requests(content)
        except Refused as error:
            return refused_frame(error.number)
        answers = [self.make(request) for request in requests]
        if any(answer.came == 2 for answer in answers):
            self.flushed = self.ordinal
        return answers_frame(answers)

    def make(self, request):
        number, call, needs = request
        if call.startswith("transact"):
            refusal = self.commit(needs)
            if refusal:
                return refused(number, refusal)
            receipt = struct.pack("<QQ", self.ordinal - 1, self.group)
            return Answer(number, CALLS[call], receipt)
        if call == "read":
            return self.read(number, *needs)
        if call == "length":
            (object_number,) = needs
            if object_number not in self.objects:
                return refused(number, 9)
            return Answer(number, 4, struct.pack("<Q", len(self.objects[object_number])))
        if call == "objects":
            listed = [item for item in sorted(self.objects.items()) if needs[0] <= item[0] < needs[1]]
            rows = b"".join(struct.pack("<IQ", at, len(content)) for at, content in listed)
            return Answer(number, 5, struct.pack("<I", len(listed)) + rows)
        if call == "status":
            return Answer(number, 6, struct.pack("<7Q", self.group - 1, 0, 0, self.group, 0, 0, 0))
        if call == "durable":
            ordinal, group = needs
            return Answer(number, 7, bytes([ordinal < self.flushed or group < self.group]))
        if call == "flush":
            self.flushed = self.ordinal
            return Answer(number, 8, b"")
        if call == "sync":
            self.group += 1
            return Answer(number, 9, struct.pack("<Q", self.group - 1))
        return Answer(number, 10, string(self.name))

    def read(self, number, at, low, high):
        if at >= OBJECTS or not low < high <= layout.MAX_LENGTH:
            return refused(number, 11)
        if at not in self.objects:
            return refused(number, 9)
        return Answer(number, 3, string(self.objects[at][low:high]))

    def commit(self, ops):
        """Commits operations, or returns the number of the refusal."""
        objects, name = dict(self.objects), self.name
        for kind, at, place, content in ops:
            if kind == "n":
                name = content
                continue
            if (kind == "c") == (at in objects):
                return 10 if kind == "c" else 9
            if kind == "c":
                objects[at] = b""
            elif kind == "d":
                del objects[at]
            elif kind == "l":
                objects[at] = objects[at][:place].ljust(place, b"\0")
            else:
                old = objects[at].ljust(place, b"\0")
                objects[at] = old[:place] + content + old[place + len(content) :]
        if self.ordinal > LAST:
            return 22
        self.objects, self.name, self.ordinal = objects, name, self.ordinal + 1
        return 0

    def serve(self, source, sink):
        """Writes the opening, and answers the frames of a stream until it ends."""
        sink.write(self.opening())
        sink.flush()
        while True:
            head = source.read(4)
            if len(head) < 4:
                return
            (length,) = struct.unpack("<I", head)
            is_frame = HEAD <= length <= MAX_FRAME
            content = head + (source.read(length - 4) if is_frame else b"")
            sink.write(self.answer(content))
            sink.flush()
            if not is_frame or len(content) < length:
                return
