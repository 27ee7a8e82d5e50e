"""Counts how often each line of a script asks for memory, on a pool in a file.

The program takes its memory by `malloc` of the C library. `cc` compiles a `malloc` that counts
(`tools/harness/shims/memory.c`). The lines are handed in one by one, and after each answer the count is read.

The calls of these lines say that they take no memory: `unlock`, `abort`, `length`, `name`, `status`, `durable`,
`close`, `quiesce`, `step` and `log-flush`. Such a line has three words at most. It may ask only as often as a line of
three words that needs no pool: a plan that a read fails, on a device in memory. Each line that asks more often is
printed, and then the status is 1. The last step of a sync isn't judged: it asks for memory for the blocks that the pool
keeps to read them faster, and answers the same without.
"""

from tools import Failed
from tools.harness import shims
from tools.harness.pool_files import SIZE, create, pool_file
from tools.harness.program import Conversation, add_program
from tools.model import layout
from tools.model.layout import STRIP

TAKE_NONE = "unlock abort length name status durable close quiesce step log-flush".split()
SECONDS = 60
# Two groups with writes to 40 objects each. The older one is synced step by step while the log has both. The newer one
# gives object 0 a second level of indirect blocks.
LOCKS = [f"lock 1 {number} w 0 {layout.MAX_LENGTH}" for number in range(40)]


def writes(first):
    for number in range(40):
        place = 4_000 if number else STRIP - 50
        shape = f"c:{number} w:{number}:0:100" if first == 0 else f"w:{number}:{place}:100"
        yield from (f"begin 1 {shape}", f"commit {first + number} @100:x")
        yield from (f"length {number}", f"durable {first + number} 9")


LINES = [
    "import 16777216",
    *LOCKS,
    *writes(0),
    *["log-write", "log-flush", "digest", "name", "status", "close", "quiesce"],
    *writes(40),
    *["log-write", "log-flush", "begin 1 c:40", "lock 1 40 w 0 4", "begin 1 w:0:0:4", "abort 80", "abort 80"],
    *["start", *["step"] * 88, "step", "status", "digest", "close", "quiesce", "start", *["step"] * 130, "log-flush"],
    *[f"unlock 1 {number}" for number in range(42)],
    *["digest", "durable 7 9", "close", "quiesce"],
]
# The last of these lines has three words and no pool.
PLAN = ["create tank 77", "fail read 1"]


def count_lines(ztxg, shim, words, lines):
    """Each line with its answer, and how often it asks for memory."""
    with shims.shared_counts("requests") as counts:
        environment = shim.environment(FAIL_AT="0", COUNT_FILE=counts.path)
        found, before = [], 0
        with Conversation([ztxg, "script", *words, "-"], SECONDS, env=environment) as running:
            for line in lines:
                answer = running.ask(line).rstrip()
                count = counts.read()["requests"]
                found.append((line, answer, count - before))
                before = count
    return found


def add_arguments(parser):
    add_program(parser)


def main(ztxg):
    with shims.compiled("memory") as shim, pool_file() as pool:
        create(ztxg, pool)
        _, answer, allowed = count_lines(ztxg, shim, [str(SIZE)], PLAN)[-1]
        if answer != "ok" or not allowed:
            raise Failed(f"no request is counted: {answer}, {allowed}")
        found = count_lines(ztxg, shim, ["--file", pool], LINES)
    judged = [row for row in found if row[0].split()[0] in TAKE_NONE and not row[1].startswith("synced")]
    wrong = [row for row in judged if row[2] > allowed]
    for line, answer, count in wrong:
        print(f"{line} -> {answer}: {count} requests for memory")
    refused = sum(answer.startswith("refused") for _, answer, _ in judged)
    print(f"{len(judged)} lines that take no memory, {refused} of them refused, {len(wrong)} that ask for some")
    return int(bool(wrong) or not all(answer for _, answer, _ in found))
