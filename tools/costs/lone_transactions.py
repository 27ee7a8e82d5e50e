"""Counts the instructions of one transaction of one thread, by callgrind of valgrind.

LONE_TRANSACTIONS makes transactions by a handle on a pool in memory that nobody else uses, each in one turn of the
pool's lock. It runs with two counts of them, and the difference counts.
"""

import re

from tools import Failed
from tools.harness.program import add_program, run

COUNTS = 1_000, 3_000
TOTAL = re.compile(r"Collected : (\d+)")


def instructions(program, count):
    """The instructions of a run with so many transactions."""
    words = ["valgrind", "--tool=callgrind", "--callgrind-out-file=/dev/null", program, str(count)]
    ran = run(words)
    found = TOTAL.search(ran.error_text())
    if ran.status != 0 or not found:
        raise Failed(f"lone_transactions.py: {ran.error_text()[-1000:]}", status=2)
    return int(found[1])


def add_arguments(parser):
    add_program(parser, "lone_transactions")


def main(lone_transactions):
    few, many = (instructions(lone_transactions, count) for count in COUNTS)
    print(f"a transaction: {(many - few) / (COUNTS[1] - COUNTS[0]):,.0f} instructions")
