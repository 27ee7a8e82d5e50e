"""The writes of a load, and what they leave in the objects of a pool (docs/SCRIPTS.md, "The load")."""

from tools.model.pcg import Pcg32

STREAMS = 16
# The object that all streams write to, and the bytes of it that one of them has.
SHARED, PART = 16, 1_024
# A stream waits after so many of its writes.
BETWEEN = 8


def writes(seed, stream):
    """The writes of a stream: object, offset and bytes."""
    numbers = Pcg32(seed, stream)
    while True:
        drawn = numbers.next_u32()
        length, byte = 1 + drawn // 1024 % 64, drawn // 65536 % 256
        if drawn < 1 << 31:
            yield stream, drawn % 8192, bytes([byte]) * length
        else:
            yield SHARED, PART * stream + drawn % 960, bytes([byte]) * length


class Area:
    """What a stream wrote: its object, and its part of the shared object with the end of the last byte there."""

    def __init__(self, stream):
        self.stream, self.own, self.part, self.end = stream, bytearray(), bytearray(PART), 0

    def write(self, place, offset, written):
        if place == SHARED:
            low = offset - PART * self.stream
            self.part[low : low + len(written)] = written
            self.end = max(self.end, offset + len(written))
        else:
            self.own.extend(bytes(max(0, offset + len(written) - len(self.own))))
            self.own[offset : offset + len(written)] = written


def counts_held(objects, seed, stream, acknowledged):
    """The numbers of first writes of a stream that would leave what the pool holds, each with its shared end. They are
    at least those that were acknowledged, and at most those that the stream makes before it waits again."""
    own = objects.get(stream, b"")
    part = objects.get(SHARED, b"").ljust(PART * STREAMS, b"\0")[PART * stream : PART * (stream + 1)]
    area, held = Area(stream), []
    made = writes(seed, stream)
    for count in range(acknowledged + BETWEEN + 1):
        if acknowledged <= count and area.own == own and area.part == part:
            held.append((count, area.end))
        area.write(*next(made))
    return held


def contents(seed, count):
    """The objects after so many writes of each stream on an empty pool."""
    areas = [Area(stream) for stream in range(STREAMS)]
    for area in areas:
        for _, write in zip(range(count), writes(seed, area.stream)):
            area.write(*write)
    shared = b"".join(bytes(area.part) for area in areas)[: max(area.end for area in areas)]
    return {**{area.stream: bytes(area.own) for area in areas}, SHARED: shared}
