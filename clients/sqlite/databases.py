"""Databases in pools, as the tests open them."""

import ctypes
import ctypes.util
import pathlib
import sqlite3
import subprocess
import sys

TOP = pathlib.Path(__file__).resolve().parent.parent.parent
sys.path[:0] = [str(TOP / "clients/hub")]

from hubs import Fault, Hub, Tests, children, wait_until, want  # noqa: E402

from topzerad import Pool  # noqa: E402

STAND_IN = str(TOP / "clients/stand_in")
MIB = 1 << 20
WAIT = 60  # seconds for a pool that a process which was killed still has


def load(extension):
    """Loads the extension into the library that Python's `sqlite3` has."""
    library = ctypes.CDLL(ctypes.util.find_library("sqlite3"))
    database, message = ctypes.c_void_p(), ctypes.c_char_p()
    library.sqlite3_open(b":memory:", ctypes.byref(database))
    library.sqlite3_enable_load_extension(database, 1)
    status = library.sqlite3_load_extension(database, str(extension).encode(), None, ctypes.byref(message))
    want(status == 0, "the extension can't be loaded:", message.value)
    library.sqlite3_close(database)


def uri(name, program, pool=None, socket=None, **options):
    """The URI of a database in a pool, or in that of a hub."""
    place = {"socket": socket} if socket else {"pool": pool, "program": program, "wait": WAIT}
    words = {"vfs": "topzerad", **place, **options}
    return f"file:{name}?" + "&".join(f"{key}={value}" for key, value in words.items())


def connect(name, program, timeout=60, **where):
    """A connection in which each statement is a transaction, unless one was begun."""
    return sqlite3.connect(uri(name, program, **where), uri=True, timeout=timeout, isolation_level=None)


def one(connection, statement, *values):
    """The first column of the first row."""
    return connection.execute(statement, values).fetchone()[0]


def want_sound(connection):
    found = one(connection, "pragma integrity_check")
    want(found == "ok", "the database isn't sound:", found)


def set_mode(connection, mode, synchronous="full"):
    found = one(connection, f"pragma journal_mode={mode}")
    want(found == mode, "the journal mode is", found, "and not", mode)
    connection.execute(f"pragma synchronous={synchronous}")


def new_pool(tests, size=64 * MIB, name="tank.pool"):
    pool = tests.folder / name
    words = [tests.program, "create", pool, "tank", "77", str(size)]
    subprocess.run([str(word) for word in words], check=True, stdout=subprocess.DEVNULL)
    return pool


def names_in(tests, pool):
    """The names of objects in a pool that no one has."""
    with Pool(tests.program, str(pool), wait=WAIT) as opened:
        return sorted(opened.names())


__all__ = ["Fault", "Hub", "MIB", "Pool", "STAND_IN", "TOP", "Tests", "WAIT", "children", "connect", "load",
           "names_in", "new_pool", "one", "set_mode", "sqlite3", "uri", "wait_until", "want", "want_sound"]  # fmt: skip
