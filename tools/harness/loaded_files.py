"""What the file of a pool holds after a load on it, beside the writes that were acknowledged."""

from tools import Failed
from tools.harness.program import run
from tools.model.load import SHARED, STREAMS, counts_held


def shown(ztxg, file):
    """The objects that show prints, with their lengths."""
    ran = run([ztxg, "show", file])
    if ran.status != 0:
        raise Failed(f"show does not mount it: status {ran.status}, {ran.error_text()}")
    lines = ran.lines()
    first = next(at for at, line in enumerate(lines) if line.startswith("objects ")) + 1
    return {int(number): int(length) for number, length in (line.split() for line in lines[first:])}


def read(ztxg, file, lengths):
    """The bytes of each object, by a script that imports the pool."""
    filled = {number: length for number, length in lengths.items() if length}
    lines = ["import 1048576"]
    for number, length in filled.items():
        lines += [f"lock 1 {number} r 0 {length}", f"read 1 {number} 0 {length}"]
    ran = run([ztxg, "script", "--file", file, "-"], lines)
    answers = ran.lines()
    if ran.status != 0 or len(answers) != len(lines):
        raise Failed(f"it is not read: status {ran.status}, {ran.text()}{ran.error_text()}")
    objects = dict.fromkeys(lengths, b"")
    for number, answer in zip(filled, answers[2::2]):
        word, length, digits = answer.split()
        objects[number] = bytes.fromhex(digits)
        if word != "bytes" or int(length) != len(objects[number]):
            raise Failed(f"object {number} is not read: {answer}")
    return objects


def more_than(objects, seed, acknowledged):
    """How many more writes the pool holds than were acknowledged. It may hold neither fewer nor anything else."""
    if any(acknowledged) and sorted(objects) != list(range(STREAMS + 1)):
        raise Failed(f"only the objects {sorted(objects)} are there")
    more, least, most = 0, 0, 0
    for stream, count in enumerate(acknowledged):
        held = counts_held(objects, seed, stream, count)
        if not held:
            raise Failed(f"stream {stream}: {count} writes were acknowledged, and the pool does not hold them")
        more += held[0][0] - count
        least, most = max(least, held[0][1]), max(most, held[-1][1])
    if not least <= len(objects.get(SHARED, b"")) <= most:
        raise Failed(f"object {SHARED} has a length that no write gives it")
    return more


def acknowledged_in(lines):
    """How many writes of each stream the lines of a `load_receipts` acknowledge."""
    acknowledged = [0] * STREAMS
    for line in lines:
        word, *numbers = line.split()
        if word == "durable":
            stream, count = map(int, numbers)
            acknowledged[stream] = max(acknowledged[stream], count)
    return acknowledged
