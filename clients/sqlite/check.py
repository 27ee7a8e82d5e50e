#!/usr/bin/env python3
"""Tests of databases in pools, on a program: `check.py --bin FOLDER --program PROGRAM [TEST ..]`. FOLDER has
topzerad.so, check, and ztxg-hub."""

import argparse
import os
import pathlib
import random
import shutil
import signal
import subprocess
import sys
import threading
import time

from databases import (
    MIB, STAND_IN, TOP, Fault, Hub, Pool, Tests, children, connect, load, names_in, new_pool, one, set_mode, sqlite3,
    uri, want, want_sound,
)  # fmt: skip
import writers

ROLLBACK_MODES = ["delete", "truncate", "persist", "memory", "off"]


def calls_of_the_vfs(tests):
    """Each call, by a program in C: of a pool of its own, and of a hub's."""
    check, extension = tests.chosen.bin / "check", tests.chosen.bin / "topzerad"
    tests.run(check, extension, new_pool(tests, 256 * MIB), tests.program)
    hub = Hub(tests)
    tests.run(check, extension, hub.path)
    hub.end()


def the_command_sqlite3(tests):
    """A database is made, and read again, by the command of SQLite."""
    if not shutil.which("sqlite3"):
        return "sqlite3 not installed"
    pool = new_pool(tests)
    begin = ["sqlite3", ":memory:", f".load {tests.chosen.bin / 'topzerad'}",
             f'.open "{uri("app.db", tests.program, pool=pool)}"']  # fmt: skip
    tests.run(*begin, "create table t(a); insert into t values (1), (2);")
    want(tests.run(*begin, "select sum(a) from t; pragma integrity_check").stdout == b"3\nok\n", "it isn't read")
    want(tests.run(*begin, ".vfsname main").stdout == b"topzerad\n", "it is another VFS")
    want(names_in(tests, pool) == ["app.db"], "names", names_in(tests, pool))


def is_the_same_file(tests):
    """The bytes of the object are a database as SQLite's own files are."""
    pool, copy = new_pool(tests), tests.folder / "copy.db"
    connection = connect("app.db", tests.program, pool=pool)
    connection.executescript("create table t(a, b); create index i on t(a);")
    connection.executemany("insert into t values (?, zeroblob(1000))", ((at,) for at in range(500)))
    connection.close()
    with Pool(tests.program, str(pool), wait=60) as opened:
        copy.write_bytes(opened.get("app.db"))
    connection = sqlite3.connect(copy)
    want_sound(connection)
    want(one(connection, "select sum(a) from t where length(b)=1000") == sum(range(500)), "its rows")
    connection.close()


def journal_modes(tests):
    """In each mode rows are kept and rolled back, also those that were written before they had to."""
    for mode in [*ROLLBACK_MODES, "wal"]:
        pool = new_pool(tests, name=f"{mode}.pool")
        connection = connect("app.db", tests.program, pool=pool)
        set_mode(connection, mode)
        connection.execute("pragma cache_size=5")
        connection.execute("create table t(a integer primary key, b)")
        for at in range(20):
            connection.execute("insert into t values (?, zeroblob(3000))", (at,))
        connection.execute("begin")
        connection.execute("update t set b=zeroblob(4000)")
        connection.execute("insert into t select a + 100, b from t")
        if mode == "off":
            connection.execute("commit")
        else:
            connection.execute("rollback")
        rows = 40 if mode == "off" else 20
        want(one(connection, "select count(*) from t") == rows, mode, "rows after a rollback")
        want(one(connection, "select max(length(b)) from t") == (4000 if mode == "off" else 3000), mode, "bytes")
        want_sound(connection)
        connection.close()
        left = ["app.db", "app.db-journal"] if mode in ("truncate", "persist") else ["app.db"]
        want(names_in(tests, pool) == left, mode, "leaves", names_in(tests, pool))
        connection = connect("app.db", tests.program, pool=pool)
        want(one(connection, "select count(*) from t") == rows, mode, "rows after it was opened again")
        want_sound(connection)
        connection.close()


def page_sizes(tests):
    if tests.program == STAND_IN:
        return "the stand-in is slow with large objects"
    pool = new_pool(tests, 128 * MIB)
    for at in range(9, 17):
        for mode in ("delete", "wal"):
            connection = connect(f"{1 << at} {mode}.db", tests.program, pool=pool)
            connection.execute(f"pragma page_size={1 << at}")
            set_mode(connection, mode)
            connection.execute("create table t(a, b)")
            connection.execute("begin")
            for row in range(300):
                connection.execute("insert into t values (?, zeroblob(?))", (row, row * 37))
            connection.execute("commit")
            connection.execute("delete from t where a % 2")
            connection.execute("vacuum")
            want(one(connection, "pragma page_size") == 1 << at, "page size")
            want_sound(connection)
            connection.close()
    want(len(names_in(tests, pool)) == 16, "names", names_in(tests, pool))


def a_write_ahead_log(tests):
    """Readers go on with what they see while another connection writes. A checkpoint takes all into the database."""
    pool = new_pool(tests)
    writer, reader = (connect("app.db", tests.program, pool=pool) for _ in range(2))
    set_mode(writer, "wal")
    writer.execute("create table t(a)")
    writer.execute("insert into t values (1)")
    reader.execute("begin")
    want(one(reader, "select count(*) from t") == 1, "the first row")
    for at in range(100):
        writer.execute("insert into t values (zeroblob(2000))")
    want(one(reader, "select count(*) from t") == 1, "a reader sees a later row")
    reader.execute("commit")
    want(one(reader, "select count(*) from t") == 101, "a reader sees too few rows")
    busy, pages, moved = reader.execute("pragma wal_checkpoint(truncate)").fetchone()
    want((busy, pages, moved) == (0, 0, 0), "the checkpoint gives", busy, pages, moved)
    want_sound(reader)
    writer.close()
    reader.close()
    want(names_in(tests, pool) == ["app.db"], "names", names_in(tests, pool))


def threads(tests):
    """Connections of several threads count up, in a mode each, two databases in one pool."""
    pool, faults = new_pool(tests), []

    def count(name, number):
        try:
            connection = connect(name, tests.program, pool=pool)
            for _ in range(25):
                connection.execute("begin immediate")
                connection.execute("update t set a=a+1 where b=?", (number,))
                connection.execute("update t set a=a+1 where b=0")
                connection.execute("commit")
            connection.close()
        except Exception as fault:  # noqa: B902
            faults.append(fault)

    opened = [connect(name, tests.program, pool=pool) for name in ("delete", "wal")]
    for connection, mode in zip(opened, ("delete", "wal")):
        set_mode(connection, mode)
        connection.execute("create table t(b, a)")
        connection.executemany("insert into t values (?, 0)", ((at,) for at in range(5)))
    workers = [threading.Thread(target=count, args=(name, at)) for name in ("delete", "wal") for at in range(1, 5)]
    for worker in workers:
        worker.start()
    for worker in workers:
        worker.join()
    want(not faults, faults)
    for connection in opened:
        want([row[0] for row in connection.execute("select a from t order by b")] == [100] + 4 * [25], "counts")
        want_sound(connection)
        connection.close()


def a_large_database(tests):
    """A database of several objects. It becomes small again by a vacuum."""
    if tests.program == STAND_IN:
        return "the stand-in is slow with large objects"
    pool = new_pool(tests, 384 * MIB)
    connection = connect("app.db", tests.program, pool=pool)
    connection.execute("pragma synchronous=normal")
    connection.execute("create table t(a integer primary key, b)")
    connection.execute("begin")
    for at in range(80):
        connection.execute("insert into t values (?, ?)", (at, bytes([at]) * MIB))
    connection.execute("commit")
    connection.close()
    want(names_in(tests, pool) == ["app.db", "app.db#2", "app.db#3"], "names", names_in(tests, pool))
    connection = connect("app.db", tests.program, pool=pool)
    want_sound(connection)
    for at, content in connection.execute("select a, b from t"):
        want(content == bytes([at]) * MIB, "row", at)
    connection.execute("delete from t where a > 3")
    connection.execute("vacuum")
    want_sound(connection)
    connection.close()
    want(names_in(tests, pool) == ["app.db"], "names after a vacuum", names_in(tests, pool))


def a_full_pool(tests):
    """SQLITE_FULL takes back a transaction or a statement, and no more. Once there is room, all goes on."""
    if tests.program == STAND_IN:
        return "the stand-in has room for all"
    for mode in ("delete", "truncate", "persist", "wal"):
        pool = new_pool(tests, 16 * MIB, f"{mode}.pool")
        with Pool(tests.program, str(pool)) as opened:
            opened.put("ballast", bytes(4 * MIB))
        connection = connect("app.db", tests.program, pool=pool)
        set_mode(connection, mode)
        connection.execute("create table t(a integer primary key, b)")

        def fill(statement, values=((),)):
            try:
                for row in values:
                    connection.execute(statement, row)
            except sqlite3.OperationalError as error:
                want("full" in str(error), mode, "the error is", error)
            else:
                raise Fault(f"{mode}: {statement} finds room")

        fill("insert into t values (?, zeroblob(100000))", ((at,) for at in range(1000)))
        rows = one(connection, "select count(*) from t")
        want(rows > 20 and rows == one(connection, "select max(a) + 1 from t"), mode, "rows", rows)
        want_sound(connection)
        connection.execute("begin")
        fill("update t set b=zeroblob(99000)")
        if connection.in_transaction:  # the statement alone was taken back
            connection.execute("commit")
        want(one(connection, "select count(*) from t where length(b)=100000") == rows, mode, "rows after an update")
        want_sound(connection)
        connection.close()
        with Pool(tests.program, str(pool), wait=60) as opened:
            opened.remove("ballast")
        connection = connect("app.db", tests.program, pool=pool)
        want(one(connection, "select count(*) from t where length(b)=100000") == rows, mode, "rows after a close")
        connection.execute("delete from t where a<3")
        connection.execute("insert into t values (1, zeroblob(50000))")
        want(one(connection, "select count(*) from t") == rows - 2, mode, "rows after a removal")
        want_sound(connection)
        connection.close()


def a_pool_in_use(tests):
    """Another program has the pool, or the hub, or there is none."""

    def fails(text, name="app.db", **where):
        try:
            connect(name, tests.program, **where)
        except sqlite3.OperationalError as error:
            want(text in str(error), "the error is", error)
        else:
            raise Fault(f"{where} was opened")

    pool = new_pool(tests)
    with Pool(tests.program, str(pool)):
        fails("database is locked", pool=pool, wait=0)
    fails("unable to open", pool=tests.folder / "none.pool")
    fails("unable to open", socket=tests.folder / "none.socket")
    other = tests.folder / "other.pool"
    other.write_bytes(bytes(8 * MIB))
    fails("unable to open", pool=other)
    with Pool(tests.program, str(pool)) as opened:
        opened.put("app.db", b"no database")
    connection = connect("app.db", tests.program, pool=pool)
    try:
        connection.execute("select * from sqlite_schema")
        raise Fault("it is a database")
    except sqlite3.DatabaseError as error:
        want("not a database" in str(error), "the error is", error)
    connection.close()


def an_end_of_the_process(tests):
    """The process that has the pool is killed while a database is open. After a close it is opened again."""
    for mode in ("delete", "wal"):
        pool = new_pool(tests, name=f"{mode}.pool")
        before = set(children(os.getpid()))
        connection = connect("app.db", tests.program, pool=pool)
        set_mode(connection, mode, "extra")
        connection.execute("create table t(a)")
        connection.execute("insert into t values (1)")
        (server,) = set(children(os.getpid())) - before
        os.kill(server, signal.SIGKILL)
        for statement in ("insert into t values (2)", "select * from t" if mode == "delete" else "delete from t"):
            try:
                connection.execute(statement).fetchall()
                raise Fault("it goes on without the process")
            except sqlite3.OperationalError as error:
                want("I/O" in str(error) or "unable to open" in str(error), "the error is", error)
        connection.close()
        connection = connect("app.db", tests.program, pool=pool)
        want(one(connection, "select count(*) from t") == 1, mode, "rows")
        want_sound(connection)
        connection.execute("insert into t values (2)")
        connection.close()


def a_log_by_a_hub(tests):
    """A database in the mode of a write-ahead log is refused by a hub, but to one program at a time."""
    hub = Hub(tests)
    connection = connect("app.db", tests.program, socket=hub.path)
    connection.execute("pragma locking_mode=exclusive")
    set_mode(connection, "wal")
    connection.execute("create table t(a)")
    connection.execute("insert into t values (1)")
    other = connect("app.db", tests.program, socket=hub.path, timeout=0)
    try:
        other.execute("select * from t")
        raise Fault("another one reads it meanwhile")
    except sqlite3.OperationalError as error:
        want("locked" in str(error) or "unable to open" in str(error), "the error is", error)
    connection.close()
    try:
        other.execute("select * from t")
        raise Fault("it is opened without memory")
    except sqlite3.OperationalError as error:
        want("unable to open" in str(error), "the error is", error)
    other.execute("pragma locking_mode=exclusive")
    want(one(other, "select count(*) from t") == 1, "rows")
    set_mode(other, "delete")
    other.close()
    hub.end()


def several_databases(tests):
    """A transaction over databases in one pool, in another one, and in a plain file. A backup."""
    pools = [new_pool(tests, name=f"{name}.pool") for name in "ab"]
    connection = connect("main.db", tests.program, pool=pools[0])
    connection.execute("attach ? as other", (uri("other.db", tests.program, pool=pools[0]),))
    connection.execute("attach ? as third", (uri("third.db", tests.program, pool=pools[1]),))
    connection.execute("attach ? as plain", (f"file:{tests.folder}/plain.db?vfs=unix",))
    databases = ["main", "other", "third", "plain"]
    for name in databases:
        connection.execute(f"create table {name}.t(a)")
    for end in ("commit", "rollback"):
        connection.execute("begin")
        for name in databases:
            connection.execute(f"insert into {name}.t values (1)")
        connection.execute(end)
    for name in databases:
        want(one(connection, f"select count(*) from {name}.t") == 1, name)
    with sqlite3.connect(tests.folder / "copy.db") as copy:
        connection.backup(copy)
        want(one(copy, "select count(*) from t") == 1, "the backup")
    connection.execute("vacuum into ?", (uri("copy.db", tests.program, pool=pools[1]),))
    connection.close()
    want(names_in(tests, pools[0]) == ["main.db", "other.db"], "names", names_in(tests, pools[0]))
    want(names_in(tests, pools[1]) == ["copy.db", "third.db"], "names", names_in(tests, pools[1]))


def programs_share_a_database(tests):
    """Two programs count up in one database by a hub, in each rollback mode. A write-ahead log is refused."""
    for mode in [("delete", "full"), ("truncate", "full"), ("persist", "normal")]:
        hub = Hub(tests)
        connection = connect("app.db", tests.program, socket=hub.path)
        writers.make(connection, 2)
        want(one(connection, "pragma journal_mode=wal") == "delete", "a write-ahead log")
        two = [writers.Writer(tests, hub.path, mode, number, socket=True) for number in (1, 2)]
        for writer in two:
            writer.await_commit()
        time.sleep(1)
        for _ in range(20):
            connection.execute("begin")
            counts = [row[0] for row in connection.execute("select count from counts order by writer")]
            rows = [one(connection, "select count(*) from rows where writer=?", number) for number in (1, 2)]
            want(counts == rows, mode, "counts", counts, "rows", rows)
            connection.execute("commit")
        for writer in two:
            writer.kill("writer")
        for number, writer in enumerate(two, 1):
            count = writers.want_counts(connection, number, writer.end(), f"{mode}, writer {number}:")
            want(count > 3, mode, "writer", number, "came to", count)
        want_sound(connection)
        connection.close()
        hub.end()


def statements(chance):
    """Statements of many kinds, each with values."""
    yield "create table one(a integer primary key, b integer, c text)", ()
    yield "create table two(a integer, b integer, c text)", ()
    yield "create index two_b on two(b)", ()
    yield "create index two_c on two(c, a)", ()
    for table in ("one", "two"):
        yield "begin", ()
        for at in range(2_000):
            number = chance.randrange(1_000_000)
            yield f"insert into {table} values (?, ?, ?)", (at, number, f"the number {number}" * chance.randrange(8))
        yield "commit", ()
    for _ in range(200):
        low = chance.randrange(1_000_000)
        yield "select count(*), sum(b) from two where b between ? and ?", (low, low + 20_000)
        at = low % 2_000
        yield "update one set c=c || ? where a between ? and ?", ("x" * chance.randrange(300), at, at + 5)
        yield "delete from two where a=?", (at,)
        yield "insert or replace into one select a + 1, b, c from two where b > ? limit 3", (low,)
    yield "savepoint s", ()
    yield "update two set b=-b", ()
    yield "rollback to s", ()
    yield "release s", ()
    yield "alter table one add column d default 'd'", ()
    yield "select count(*) from one join two using (b)", ()
    yield "create table three as select a, sum(b) s from two group by a % 100", ()
    yield "drop index two_b", ()
    yield "pragma incremental_vacuum", ()
    yield "vacuum", ()
    yield "select a, b, c, d from one order by c, a", ()
    yield "select * from three order by 1", ()


def reads_are_kept(tests):
    """What was read is read again while the process that has the pool is stopped."""
    for mode in ("delete", "wal"):
        pool, before = new_pool(tests, name=f"{mode}.pool"), set(children(os.getpid()))
        connection = connect("app.db", tests.program, pool=pool, read_cache="16M")
        set_mode(connection, mode)
        connection.execute("pragma cache_size=2")
        connection.execute("create table t(a integer primary key, b)")
        connection.executemany("insert into t values (?, zeroblob(3000))", ((at,) for at in range(50)))
        total = "select sum(a), sum(length(b)) from t"
        want(connection.execute(total).fetchone() == (1225, 150000), mode, "rows")
        (process,) = set(children(os.getpid())) - before
        os.kill(process, signal.SIGSTOP)
        continues = threading.Timer(10, os.kill, (process, signal.SIGCONT))
        continues.start()
        begin = time.monotonic()
        want(connection.execute(total).fetchone() == (1225, 150000), mode, "rows without the process")
        want(time.monotonic() - begin < 10, mode, "a read waits for the process")
        continues.cancel()
        os.kill(process, signal.SIGCONT)
        connection.execute("update t set b=zeroblob(2000) where a<10")
        want(connection.execute(total).fetchone() == (1225, 140000), mode, "rows after an update")
        connection.close()


def a_mixed_load(tests):
    """A load as SQLite's speedtest1 has, on a pool and on a plain file: each statement gives the same rows. One pool
    has a cache of reads that is much too small."""
    for mode, size in (("delete", "64K"), ("wal", "64M")):
        pool = new_pool(tests, 128 * MIB, f"{mode}.pool")
        in_pool = connect("app.db", tests.program, pool=pool, read_cache=size)
        plain = sqlite3.connect(tests.folder / f"{mode}.db", isolation_level=None)
        seconds = [0.0, 0.0]
        for connection in (in_pool, plain):
            connection.execute("pragma auto_vacuum=incremental")
            set_mode(connection, mode)
            connection.execute("pragma cache_size=50")
        for statement, values in statements(random.Random(tests.chosen.seed)):
            rows = []
            for at, connection in enumerate((in_pool, plain)):
                begin = time.monotonic()
                rows.append(connection.execute(statement, values).fetchall())
                seconds[at] += time.monotonic() - begin
            want(rows[0] == rows[1], mode, "the rows differ after", statement, values)
        want_sound(in_pool)
        in_pool.close()
        plain.close()
        print(f"{mode}: {seconds[0]:.1f} s in a pool, {seconds[1]:.1f} s in a file")


def the_tests_of_sqlite(tests):
    """A few files of SQLite's own tests, if its source is there."""
    words = [TOP / "clients/sqlite/suite", "--program", tests.program, "--out", tests.chosen.bin / "suite"]
    names = ["select1", "insert", "update", "delete", "trans", "savepoint", "rollback", "vacuum", "index", "wal2"]
    ran = subprocess.run([*words, *names], capture_output=True, text=True)
    said = (ran.stdout + ran.stderr).strip().splitlines()
    want(not ran.returncode, *said[-20:])
    return said[-1].removeprefix("skipped: ") if said and said[-1].startswith("skipped") else None


TESTS = [
    calls_of_the_vfs,
    the_command_sqlite3,
    is_the_same_file,
    journal_modes,
    page_sizes,
    a_write_ahead_log,
    threads,
    a_large_database,
    a_full_pool,
    a_pool_in_use,
    an_end_of_the_process,
    a_log_by_a_hub,
    several_databases,
    programs_share_a_database,
    reads_are_kept,
    a_mixed_load,
    writers.kills,
    writers.power_failures,
    writers.kills_of_the_program_alone,
    writers.kills_beside_others,
    the_tests_of_sqlite,
]


def run_test(test, chosen):
    """Runs a test, and returns whether it didn't fail."""
    name, tests = f"sqlite: {test.__name__.replace('_', ' ')}", Tests(chosen)
    try:
        fault = test(tests)
    except Exception as error:
        print(f"FAILED {name}: {type(error).__name__}: {error}", flush=True)
        for hub in tests.hubs:
            print(hub.said(), end="", flush=True)
        return False
    finally:
        tests.end()
    print(f"skipped {name}: {fault}" if fault else f"passed {name}", flush=True)
    return True


def main():
    parser = argparse.ArgumentParser(description=__doc__.splitlines()[0])
    parser.add_argument("--bin", type=lambda word: pathlib.Path(word).resolve(), required=True)
    parser.add_argument("--program", default=STAND_IN)
    parser.add_argument("--kills", type=int, default=20, help="at so many moments processes are killed (20)")
    parser.add_argument("--seed", type=int, default=1)
    parser.add_argument("--without", nargs="*", default=[], help="tests that aren't run")
    parser.add_argument("tests", metavar="TEST", nargs="*", help="their names begin so (all)")
    chosen = parser.parse_args()
    chosen.program = os.path.realpath(shutil.which(chosen.program) or chosen.program)
    load(chosen.bin / "topzerad.so")
    failed = 0
    for test in TESTS:
        is_chosen = not chosen.tests or any(test.__name__.startswith(word) for word in chosen.tests)
        if is_chosen and test.__name__ not in chosen.without:
            failed += not run_test(test, chosen)
    return 1 if failed else 0


if __name__ == "__main__":
    sys.exit(main())
