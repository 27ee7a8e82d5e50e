#!/usr/bin/env python3
"""Measures databases in a pool, by a hub, and in a plain file: `speed.py --bin FOLDER ZTXG`. FOLDER has topzerad.so and
ztxg-hub. Files lie in the folder for temporary ones, TMPDIR. Each figure is one round of some seconds.

With `--reads MIB` it measures random reads alone: of a database of so many MiB, with caches of reads of several sizes
and in a plain file, in turn. Each figure is the best of some rounds."""

import argparse
import pathlib
import random
import time

from databases import MIB, Hub, Tests, connect, load, new_pool, one, set_mode, sqlite3, want

ROWS = 100_000
MODES = [("delete", "full"), ("truncate", "full"), ("wal", "full"), ("wal", "normal")]


def rate(seconds, make):
    """How often a second `make` can be called."""
    begin, count = time.monotonic(), 0
    while time.monotonic() - begin < seconds:
        make()
        count += 1
    return count / (time.monotonic() - begin)


def commits(connection, mode, seconds):
    """Commits a second, each of one row."""
    set_mode(connection, *mode)
    connection.execute("create table if not exists c(a integer primary key, b)")
    return rate(seconds, lambda: connection.execute("insert into c(b) values (zeroblob(100))"))


def selects(connection, seconds):
    """Random rows a second, of more than SQLite's page cache has room for, and rows inserted a second before."""
    set_mode(connection, "truncate")
    connection.execute("create table r(a integer primary key, b)")
    begin = time.monotonic()
    connection.execute("begin")
    connection.executemany("insert into r values (?, zeroblob(200))", ((at,) for at in range(ROWS)))
    connection.execute("commit")
    inserts = ROWS / (time.monotonic() - begin)
    chance = random.Random(1)
    select = "select length(b) from r where a=?"
    return inserts, rate(seconds, lambda: connection.execute(select, (chance.randrange(ROWS),)).fetchone())


def open_for_reads(tests, pool, size):
    """A connection to the database in a pool with a cache of that size, or to that in a plain file."""
    if size is None:
        return sqlite3.connect(tests.folder / "app.db", isolation_level=None)
    return connect("app.db", tests.program, pool=pool, read_cache=size)


def fill(connection, rows):
    connection.execute("pragma synchronous=off")
    connection.execute("create table r(a integer primary key, b)")
    connection.execute("begin")
    connection.executemany("insert into r values (?, zeroblob(1000))", ((at,) for at in range(rows)))
    connection.execute("commit")
    connection.close()


def reads(tests, mebibytes, rounds, seconds):
    """Random rows a second, after a read of all rows in order, and the seconds that took."""
    pool, rows = new_pool(tests, 2 * mebibytes * MIB), mebibytes * 1000
    ways = {"pool, 0": "0", "pool, 64M": "64M", "pool, 512M": "512M", "file": None}
    for size in ("64M", None):
        fill(open_for_reads(tests, pool, size), rows)
    best, scans = dict.fromkeys(ways, 0.0), dict.fromkeys(ways, float("inf"))
    for _ in range(rounds):
        for name, size in ways.items():
            connection = open_for_reads(tests, pool, size)
            begin = time.monotonic()
            want(one(connection, "select sum(length(b)) from r") == 1000 * rows, "rows")
            scans[name] = min(scans[name], time.monotonic() - begin)
            chance, select = random.Random(1), "select length(b) from r where a=?"
            rated = rate(seconds, lambda: one(connection, select, chance.randrange(rows)))  # noqa: B023
            best[name] = max(best[name], rated)
            connection.close()
            print(f"{name}: {rated:,.0f} rows a second", flush=True)
    for what, found in (("random rows read a second", best), ("all rows in order, rows a second", scans)):
        figures = found if found is best else {name: rows / took for name, took in scans.items()}
        print(f"| {what} |", " | ".join(f"{figure:,.0f}" for figure in figures.values()), "|")


def main():
    parser = argparse.ArgumentParser(description=__doc__.splitlines()[0])
    parser.add_argument("program")
    parser.add_argument("--bin", type=lambda word: pathlib.Path(word).resolve(), required=True)
    parser.add_argument("--seconds", type=float, default=2)
    parser.add_argument("--reads", type=int, metavar="MIB", help="measure random reads alone")
    parser.add_argument("--rounds", type=int, default=3, help="of random reads (3)")
    chosen = parser.parse_args()
    load(chosen.bin / "topzerad.so")
    tests = Tests(chosen)
    if chosen.reads:
        reads(tests, chosen.reads, chosen.rounds, chosen.seconds)
        tests.end()
        return
    pool, hub = new_pool(tests, 256 * MIB), Hub(tests, "--cache", "4096")
    opened = {
        "pool": connect("app.db", chosen.program, pool=pool),
        "hub": connect("app.db", chosen.program, socket=hub.path),
        "file": sqlite3.connect(tests.folder / "app.db", isolation_level=None),
    }
    print("| |", " | ".join(opened), "|")
    for mode in MODES:
        rates = [
            "-" if where == "hub" and mode[0] == "wal" else f"{commits(connection, mode, chosen.seconds):,.0f}"
            for where, connection in opened.items()
        ]
        print(f"| commits a second, {mode[0].upper()}, {mode[1].upper()} |", " | ".join(rates), "|", flush=True)
    pairs = [selects(connection, chosen.seconds) for connection in opened.values()]
    for at, what in enumerate(["rows inserted a second by one transaction", "random rows read a second"]):
        print(f"| {what} |", " | ".join(f"{pair[at]:,.0f}" for pair in pairs), "|", flush=True)
    for connection in opened.values():
        connection.close()
    hub.end()
    tests.end()


if __name__ == "__main__":
    main()
