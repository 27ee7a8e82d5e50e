"""Rows of stops: worked rows that are refused or stopped at some of their device calls.

`stops` does this for all rows, at each call, with each string of letters. A row here is one of its rounds, with
letters that keep, lose or tear all unflushed writes, or that are drawn. The rounds of a kind are cut into equal parts
in their order, so that these go over all calls, and one is drawn of each part.
"""

from tools.model.pcg import Pcg32
from tools.model.serial_pool import LEAST
from tools.rows.script_row import Row
from tools.rows.stopped_rows import Creates, Script, few_strings, is_whole

# Two groups, of which the older one has the last commit; a sync of seven calls before its last flush; and a rename.
# With them come the rows of the log, whose first ones are a log that is replayed and one that ends at a torn block.
WORKED = [
    "a commit into the quiescing group after one into the next group",
    "each step of a sync is a device call, and a crash that tears all four uberblocks leaves the group before",
    "a group that only gives a name is synced in twelve steps",
]
CREATES = 12


def stopped_imports(script):
    """The rounds of a script in which the import of its image at a stop is stopped."""
    for _ in script.stops():
        yield from script.stop_imports()


# What comes before a script's title, how many rounds there are, and where they come from.
KINDS = [
    ("a call is refused", 3, Script.refused_calls),
    ("a stop", 4, Script.stops),
    ("an import is stopped", 2, stopped_imports),
]


def drawn(title, rounds, count):
    """One row of each of so many equal parts of these rounds."""
    rounds, chance = list(rounds), Pcg32.of_text(title)
    ends = [at * len(rounds) // count for at in range(count + 1)]
    for number, (low, high) in enumerate(zip(ends, ends[1:]), 1):
        row = Row(f"{title}, {number}", LEAST)
        for line, answer in rounds[low + chance.next_u32() % (high - low)]:
            row.say(line, answer)
        yield row


def stopped_scripts(log_rows, other_rows):
    """The rows of these scripts, of which the other ones have a title of `WORKED`."""
    rows = [row for row in other_rows if row.head.split(" ", 3)[3] in WORKED] + log_rows
    assert len(rows) == len(WORKED) + len(log_rows)
    for row in filter(is_whole, rows):
        for kind, count, rounds_of in KINDS:
            script = Script(row, share=0, strings_of=few_strings)
            yield from drawn(f"{kind}: {script.title}", rounds_of(script), count)
    creates = Creates(share=1)
    yield from drawn(f"a stop: {creates.title}", creates.all_rounds(), CREATES)
