"""Kills of processes that have a database, and of the processes that have its pool. No commit that was acknowledged is
lost, and the database is sound. As a program it is one of these writers."""

import argparse
import os
import random
import signal
import subprocess
import sys
import time

from databases import (
    STAND_IN, Fault, Hub, children, connect, load, new_pool, one, set_mode, sqlite3, wait_until, want, want_sound,
)  # fmt: skip

# Journal modes, and how far a commit is synced in each: so far that no power failure takes it back.
MODES = [("delete", "extra"), ("truncate", "full"), ("persist", "full"), ("wal", "full")]
# Those in which the end of the writer alone loses no commit. It gives back no lock in between.
WEAK_MODES = [("delete", "off"), ("truncate", "off"), ("persist", "normal"), ("wal", "off"), ("wal", "normal")]
SCHEMA = """create table if not exists counts(writer integer primary key, count integer);
create table if not exists rows(id integer primary key, writer integer, count integer, bytes blob);
create index if not exists by_writer on rows(writer, count);"""


def count_up(connection, writer, chance):
    """A transaction: the writer's count rises, and each count has a row. Returns the count."""
    connection.execute("begin immediate")
    count = one(connection, "select count from counts where writer=?", writer) + 1
    connection.execute("update counts set count=? where writer=?", (count, writer))
    size = chance.choice([10, 500, 5_000, 50_000])
    connection.execute("insert into rows(writer, count, bytes) values (?, ?, zeroblob(?))", (writer, count, size))
    connection.execute("update rows set bytes=zeroblob(1) where writer=? and count=?", (writer, count - 5))
    connection.execute("commit")
    return count


def write(words):
    """Counts up until it is killed, and tells each count that was acknowledged."""
    load(words.extension)
    where = {"socket": words.place} if words.socket else {"pool": words.place}
    chance = random.Random(words.seed)
    try:
        connection = connect("app.db", words.program, **where)
        connection.execute("pragma cache_size=20")
        if words.exclusive:
            connection.execute("pragma locking_mode=exclusive")
        set_mode(connection, words.mode, words.synchronous)
        while True:
            print(count_up(connection, words.writer, chance), flush=True)
            if words.socket:
                time.sleep(chance.random() * 0.05)  # others get their turn
    except sqlite3.OperationalError as error:
        print("error:", error, flush=True)


class Writer:
    """A process that counts up in a database."""

    def __init__(self, tests, place, mode, number=1, *, socket=False, exclusive=False):
        words = [sys.executable, __file__, tests.chosen.bin / "topzerad.so", tests.program, place, *mode, number,
                 random.randrange(1 << 30)]  # fmt: skip
        words += ["--socket"] * socket + ["--exclusive"] * exclusive
        self.said = tests.folder / f"writer {number}"
        with open(self.said, "wb") as said:
            self.process = subprocess.Popen([str(word) for word in words], stdout=said)

    def await_commit(self):
        """Waits until it has told of something."""
        wait_until(lambda: self.said.stat().st_size, "the first commit of a writer")

    def kill(self, victim):
        """Kills the writer, its server, or both."""
        servers = list(children(self.process.pid)) if victim != "writer" else []
        for number in servers:
            os.kill(number, signal.SIGKILL)
        if victim != "server" or not servers:
            self.process.kill()

    def end(self):
        """Waits for its end. Returns the last count that was acknowledged, or 0."""
        self.process.wait()
        lines = self.said.read_text().rpartition("\n")[0].splitlines()
        return max([int(line) for line in lines if line.isdigit()], default=0)


def make(connection, writers):
    connection.executescript(SCHEMA)
    for number in range(1, writers + 1):
        connection.execute("insert into counts values (?, 0)", (number,))


def want_counts(connection, writer, acknowledged, what):
    """The count is the last that was acknowledged, or the next one. There is a row for each."""
    count = one(connection, "select count from counts where writer=?", writer)
    want(acknowledged <= count <= acknowledged + 1, what, "acknowledged was", acknowledged, "and there is", count)
    rows = one(connection, "select count(distinct count) from rows where writer=? and count between 1 and ?", writer,
               count)  # fmt: skip
    want(rows == count == one(connection, "select count(*) from rows where writer=?", writer), what, "rows", rows,
         "of", count)  # fmt: skip
    return count


def kills_in_a_mode(tests, mode, victims, kills):
    """Kills in the middle of transactions. The next one goes on where the one before was killed."""
    chance, pool = random.Random(tests.chosen.seed), new_pool(tests, 256 << 20, f"{' '.join(mode)}.pool")
    before = commits = 0
    connection = connect("app.db", tests.program, pool=pool)
    make(connection, 1)
    connection.close()
    for at in range(kills):
        victim = victims[at % len(victims)]
        writer = Writer(tests, pool, mode, exclusive=mode in WEAK_MODES)
        writer.await_commit()
        time.sleep(chance.random() * 0.5)
        writer.kill(victim)
        acknowledged = writer.end()
        connection = connect("app.db", tests.program, pool=pool)
        want_sound(connection)
        count = want_counts(connection, 1, max(acknowledged, before), f"{mode}, kill {at} of {victim}:")
        commits += max(acknowledged - before, 0)
        before = count
        connection.close()
    want(kills < 5 or commits > kills, "too few commits:", commits)
    print(f"{' '.join(mode)}: {kills} kills, {commits} acknowledged commits, none lost")


def kills(tests):
    """Kills of the writer, of its server, and of both."""
    for mode in MODES:
        kills_in_a_mode(tests, mode, ["writer", "server", "both"], tests.chosen.kills)


def power_failures(tests):
    """Kills of the process that has the pool, which loses then what it wrote to the file after the last sync, and of
    the writer with it. With a disk that ignores each third sync something is lost, or damaged."""
    if tests.program == STAND_IN:
        return "the stand-in guards against no power failure"
    program = tests.program
    tests.program = with_power_cuts(tests, program, "")
    for mode in MODES:
        kills_in_a_mode(tests, mode, ["server", "both"], tests.chosen.kills)
    tests.program = with_power_cuts(tests, program, "POWERCUT_LIES=3")
    try:
        kills_in_a_mode(tests, ("wal", "extra"), ["server"], 20)
    except (Fault, sqlite3.Error) as error:
        print("with a disk that ignores each third sync:", error)
    else:
        raise Fault("a disk that ignores each third sync loses nothing")


def with_power_cuts(tests, program, words):
    """The program as one that power failures befall."""
    script = tests.folder / f"ztxg{words}"
    script.write_text(f"#!/bin/sh\n{words} LD_PRELOAD={tests.chosen.bin / 'powercut.so'} exec {program} \"$@\"\n")
    script.chmod(0o755)
    return str(script)


def kills_of_the_program_alone(tests):
    for mode in WEAK_MODES:
        kills_in_a_mode(tests, mode, ["writer"], (tests.chosen.kills + 3) // 4)


def kills_beside_others(tests):
    """Three programs count up in one database by a hub. One of them is killed, the others go on, and at the end the hub
    or its server is killed."""
    chance, before = random.Random(tests.chosen.seed), [0, 0, 0, 0]
    folder = None
    commits = 0
    for at in range(tests.chosen.kills):
        mode = MODES[at % 3]
        hub = Hub(tests, "--wait", "60", folder=folder)
        connection = connect("app.db", tests.program, socket=hub.path)
        if folder is None:
            make(connection, 3)
        folder = hub.folder
        connection.close()
        writers = [Writer(tests, hub.path, mode, number, socket=True) for number in (1, 2, 3)]
        for writer in writers:
            writer.await_commit()
        time.sleep(chance.random() * 0.5)
        writers[0].kill("writer")
        acknowledged = [0, writers[0].end()]
        connection = connect("app.db", tests.program, socket=hub.path)
        before[1] = want_counts(connection, 1, max(acknowledged[1], before[1]), f"{mode}, kill {at} of one of three:")
        connection.close()
        time.sleep(chance.random() * 0.3)
        os.kill(hub.server, signal.SIGKILL) if at % 2 else hub.process.kill()
        hub.process.wait()
        acknowledged += [writer.end() for writer in writers[1:]]
        connection = connect("app.db", tests.program, pool=hub.file)
        want_sound(connection)
        for number in (1, 2, 3):
            what = f"{mode}, kill {at} of all, writer {number}:"
            commits += max(acknowledged[number] - before[number], 0)
            before[number] = want_counts(connection, number, max(acknowledged[number], before[number]), what)
        connection.close()
    print(f"hub: {tests.chosen.kills} kills, {commits} acknowledged commits, none lost")


def main():
    parser = argparse.ArgumentParser(description=write.__doc__)
    for name in ("extension", "program", "place", "mode", "synchronous"):
        parser.add_argument(name)
    parser.add_argument("writer", type=int)
    parser.add_argument("seed", type=int)
    parser.add_argument("--socket", action="store_true")
    parser.add_argument("--exclusive", action="store_true")
    write(parser.parse_args())


if __name__ == "__main__":
    main()
