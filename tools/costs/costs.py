"""Counts the instructions of commits, reads, syncs and the log, by callgrind of valgrind.

Each row of a table is a pool on which a script runs (`tools/rows/cost_rows.py`). A number is the mean of the
instructions that the pool spends on a counted line, and `all` is the sum of those of a row. The lines that make a pool
ready don't count. With a WORD only the tables run whose names have it.

The compiler puts the pool's calls into the function that runs the lines, so none of them can be counted by its name.
What stays a function of its own is the reading of a command, and what prints an answer. Callgrind starts a part of its
file where a command was read, and the next one where a part of the answer is printed first, or at the latest where the
program calls `write`. In between lies what the session and the pool do. What the session does is measured by the same
lines on a suspended pool, which refuses them at once, and taken off. A question whether a commit is durable isn't
refused there, but that pool keeps no log block.

The rows of a pair differ in one number. Their sums have to be within 10 percent of one another. The status is 1 if
those of a pair are not, and 2 if a script can't be counted. Other rows are printed alone. The pool of 1 GiB takes some
minutes.

The table of long plans has the longest of two kinds, each beside one of a sixteenth: creates and removes by turns, of
200 objects, and one write. How many times as much the longer one takes is printed and not judged. What the session does
for a commit grows with its plan.
"""

import collections
import pathlib
import re
import tempfile

from tools import Failed
from tools.harness.program import add_program, run
from tools.model import layout
from tools.model.layout import DIRTY_MAX, MIB
from tools.rows.cost_rows import ROUNDS, TABLES, Script

# A line's command was read where the one function returns. One of the others prints its answer.
READ = "script_lines::command::parse_command*"
PRINTED = ["core::fmt::formatter::Formatter::pad::*", "core::fmt::tuples::*", "write"]
# The lines that make a pool with an empty group unsynced, that suspend it, and how many lines of a kind are then
# measured.
MADE = ["create tank 77", f"import {DIRTY_MAX}", "close", "quiesce"]
SUSPEND = ["fail flush 1", "start", "finish"]
REFUSED = 20
FREE = re.compile(r"free (\d+)")
MOST_APART = 0.10
# The longest plans, each with one of a sixteenth; the owner of their locks; and the bytes of a pool that has room for
# 26,204 blocks.
Plan = collections.namedtuple("Plan", "shapes bytes")
PLANS = [(Plan(818, 0), Plan(13_102, 0)), (Plan(1, 4_093), Plan(1, 65_497))]
PLANS_NAME = "Long plans"
PLANNER = 3
PLANS_SIZE = 128 * MIB


def fail(reason):
    raise Failed(f"costs.py: {reason}", status=2)


def count_lines(ztxg, size, lines, folder):
    """The answers of a script, and the instructions of each line from its command to its answer."""
    counts = folder / "counts"
    words = ["valgrind", "--tool=callgrind", f"--callgrind-out-file={counts}", "--combine-dumps=yes"]
    words += [f"--dump-after={READ}", *(f"--dump-before={name}" for name in PRINTED)]
    script = folder / "script"
    script.write_text("\n".join(lines) + "\n")
    ran = run([*words, ztxg, "script", str(size), str(script)])
    answers = ran.lines()
    if ran.status != 0 or len(answers) != len(lines):
        fail(ran.error_text()[-1000:])
    totals, ended, began = [], "", ""
    with open(counts) as parts:
        for line in parts:
            if line.startswith("desc: Trigger:"):
                began, ended = ended, line
            elif line.startswith("totals:") and "--dump-after" in began:
                totals.append(int(line.split()[1]))
    if len(totals) != len(lines):
        fail(f"the program doesn't call {READ} once for each line")
    return answers, totals


def count_kinds(ztxg, size, made, folder):
    """The mean of the instructions of the counted lines, and these lines, by their kinds."""
    answers, totals = count_lines(ztxg, size, made.lines, folder)
    for line, answer in zip(made.lines, answers):
        if answer.startswith(("refused", "line")):
            fail(f"`{line[:60]}` is answered `{answer}`")
    for at, blocks in made.takes.items():
        before, after = (int(FREE.search(answer)[1]) for answer in (answers[at - 1], answers[at + 1]))
        if before - after != blocks:
            fail(f"`{made.lines[at]}` takes {before - after} blocks instead of {blocks}")
    costs, lines = collections.defaultdict(list), collections.defaultdict(list)
    for at, kind in made.counted.items():
        costs[kind].append(totals[at])
        lines[kind].append(made.lines[at])
    return {kind: (mean(some), lines[kind]) for kind, some in costs.items()}


def count(ztxg, size, made, folder):
    """The mean of the instructions of the counted lines, by their kinds."""
    kinds = count_kinds(ztxg, size, made, folder).items()
    return {kind: cost - session_cost(ztxg, made, kind, lines[-REFUSED:], folder) for kind, (cost, lines) in kinds}


def session_cost(ztxg, made, kind, lines, folder):
    """The mean of the instructions of the session for lines of a kind. Each commit is like the last one."""
    if kind != "commit":
        return own_cost(ztxg, 8 * MIB, [], lines, folder)
    _, _, contents = lines[-1].split(" ", 2)
    begin = made.lines[made.lines.index(lines[-1]) - 1]
    owner, shape = begin.split()[1:]
    lock = f"lock {owner} {shape.split(':')[1]} w 0 {layout.MAX_LENGTH}"
    # There the open transaction is the first one.
    return own_cost(ztxg, 8 * MIB, [lock, begin], [f"commit 0 {contents}"] * REFUSED, folder)


def own_cost(ztxg, size, begun, lines, folder):
    """The mean of the instructions of lines that a suspended pool refuses. Before it is suspended it gets the lines
    `begun`."""
    before = [*MADE, *begun, *SUSPEND]
    answers, totals = count_lines(ztxg, size, before + lines, folder)
    if [answer.startswith("refused") for answer in answers[: len(before)]] != [False] * (len(before) - 1) + [True]:
        fail(f"no pool is suspended: {answers[: len(before)]}"[:1000])
    return mean(totals[len(before) :])


def mean(numbers):
    return sum(numbers) / len(numbers)


def count_plan(ztxg, plan, folder):
    """The instructions of a begin and of a commit of a plan."""
    objects = range(1 if plan.bytes else 200)
    turns = (f"c:{at % len(objects)} d:{at % len(objects)}" for at in range(plan.shapes // 2))
    shapes = f"w:0:0:{plan.bytes}" if plan.bytes else " ".join(turns)
    contents = f"@{plan.bytes}:x" if plan.bytes else ""
    made = Script()
    if plan.bytes:
        made.create(1)
    for number in objects:
        made.lock(PLANNER, number, layout.MAX_LENGTH)
    for _ in range(ROUNDS):
        made.transact(PLANNER, shapes, contents)
        made.count("begin", "commit")
        made.finish()
    begin = f"begin {PLANNER} {shapes}"
    begun = [*(f"lock {PLANNER} {number} w 0 {layout.MAX_LENGTH}" for number in objects), begin]
    # There the open transaction is the first one.
    refused = {"begin": begin, "commit": f"commit 0 {contents}".rstrip()}
    kinds = count_kinds(ztxg, PLANS_SIZE, made, folder).items()
    return {
        kind: cost - own_cost(ztxg, PLANS_SIZE, begun, [refused[kind]] * ROUNDS, folder) for kind, (cost, _) in kinds
    }


def head(row, kinds):
    """The head of a table."""
    return "".join(f"{word:>10}" for word in [*row._fields, *kinds])


def judge(name, one, other):
    """Prints how far two sums are apart, and tells whether that is too far."""
    low, high = sorted([one, other])
    apart = high / low - 1
    verdict = "within" if apart <= MOST_APART else "not within"
    print(f"{name}: {apart:.1%} apart, {verdict} {MOST_APART:.0%}", flush=True)
    return apart > MOST_APART


def run_table(ztxg, table, folder):
    """Prints a table and its verdicts, and tells whether a pair is too far apart."""
    rows = list(dict.fromkeys([*(row for pair in table.pairs.values() for row in pair), *table.rows]))
    print(f"{table.name}\n{head(rows[0], [*table.kinds, 'all', *table.more])}")
    sums = {}
    for row in rows:
        costs = count(ztxg, table.size or row.MiB * MIB, table.script(row), folder)
        sums[row] = sum(costs[kind] for kind in table.kinds)
        numbers = [*(costs[kind] for kind in table.kinds), sums[row], *(costs.get(kind, 0) for kind in table.more)]
        print("".join(f"{number:10.0f}" for number in [*row, *numbers]), flush=True)
    return any([judge(name, sums[one], sums[other]) for name, (one, other) in table.pairs.items()])


def run_plans(ztxg, folder):
    """Prints the table of long plans."""
    kinds = ["begin", "commit"]
    print(f"{PLANS_NAME}\n{head(PLANS[0][0], kinds + ['all'])}")
    for pair in PLANS:
        costs = [count_plan(ztxg, plan, folder) for plan in pair]
        for plan, cost in zip(pair, costs):
            numbers = [cost[kind] for kind in kinds]
            print("".join(f"{number:10.0f}" for number in [*plan, *numbers, sum(numbers)]), flush=True)
        times = ", ".join(f"{kind} {costs[1][kind] / costs[0][kind]:.1f} times" for kind in kinds)
        print(f"16 times as much: {times}", flush=True)


def add_arguments(parser):
    add_program(parser)
    parser.add_argument("word", metavar="WORD", nargs="?", default="", help="of the tables that are made (all)")


def main(ztxg, word):
    tables = [table for table in TABLES if word.lower() in table.name.lower()]
    with tempfile.TemporaryDirectory() as folder:
        folder = pathlib.Path(folder)
        is_apart = any([run_table(ztxg, table, folder) for table in tables])
        if word.lower() in PLANS_NAME.lower():
            run_plans(ztxg, folder)
        return int(is_apart)
