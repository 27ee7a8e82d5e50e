"""A pool of numbered objects of bytes in a file, from Python. A process `ztxg serve FILE` has the pool.

    from topzerad import Pool, create, create_pool, write

    create_pool("ztxg", "tank.pool", "tank", 77, 67_108_864)
    with Pool("ztxg", "tank.pool") as pool:
        pool.transact_durably([create(1), write(1, 0, b"hello")])
        print(pool.read(1))

`transact` commits: a power failure may lose the transaction until a `flush` or `sync`. `transact_durably` returns once
no power failure loses it. Every error is an `Error`.

`put`, `get`, `remove` and `names` know objects by names in place of numbers.
"""

from .errors import (
    NAMES,
    TEXTS,
    BadArgument,
    Broken,
    Ended,
    Error,
    FileForbidden,
    FileInUse,
    FileMissing,
    FilePresent,
    FileUnusable,
    Forked,
    NoOpening,
    Refused,
    RefusedFrame,
    TimedOut,
)
from .frames import Opened, Receipt, Status
from .name_table import MAX_OBJECT_NAME
from .operations import (
    MAX_LENGTH,
    MAX_NAME,
    MAX_RECORD,
    MAX_WRITE,
    OBJECT_COUNT,
    Operation,
    create,
    remove,
    set_length,
    set_name,
    write,
)
from .pool import PIECE, Pool
from .process import create_pool

__all__ = [
    "MAX_LENGTH",
    "MAX_NAME",
    "MAX_OBJECT_NAME",
    "MAX_RECORD",
    "MAX_WRITE",
    "NAMES",
    "OBJECT_COUNT",
    "PIECE",
    "TEXTS",
    "BadArgument",
    "Broken",
    "Ended",
    "Error",
    "FileForbidden",
    "FileInUse",
    "FileMissing",
    "FilePresent",
    "FileUnusable",
    "Forked",
    "NoOpening",
    "Opened",
    "Operation",
    "Pool",
    "Receipt",
    "Refused",
    "RefusedFrame",
    "Status",
    "TimedOut",
    "create",
    "create_pool",
    "remove",
    "set_length",
    "set_name",
    "write",
]
