#!/usr/bin/env python3
"""Times `ztxg` beside SQLite, RocksDB and a plain log that make the same writes, and prints ratios.

    make -C bench
    python3 tools build_program durable_load bench/out/durable_load
    python3 bench/run.py --ztxg crates/ztxg/out/ztxg --durable bench/out/durable_load

In each round each contestant runs once, in the same folder, each on a store made anew; the next round begins with the
next contestant. What a store holds afterwards is compared with the writes. bench/README.md says what is compared and
how the output is read. The status is 1 if a contestant fails or holds something else, and 2 for a command-line fault:
also for a program that `rt try` built, which is half as fast.
"""

import argparse
import contextlib
import hashlib
import itertools
import math
import os
import pathlib
import shutil
import statistics
import subprocess
import sys
import tempfile
import time
from dataclasses import dataclass, field, replace

HERE = pathlib.Path(__file__).resolve().parent
PEERS = HERE / "out"

STREAMS = 16
# `ztxg load` makes so many transactions before its streams begin, and `durable_load` with large writes makes one.
FIRST_SMALL, FIRST_LARGE = 17, 1
POOL = "tank"
GUID = "77"

MIB = 2**20
DEFAULT_DIRTY = MIB
EACH, EIGHTH = "each", "eighth"

# The bytes of a write, if it is large. Small ones are those of `ztxg load`.
SMALL = None
LARGE = {4096: "4 KiB", 65_000: "64 KiB"}
# The most bytes that one write of a pool can have.
LONGEST = 65_497

# Goals are of the better of the stores, if both sides flush alike. The first are by dirty limit and workers.
LIKE_GOALS = {
    (64 * MIB, 1): 1.5,
    (64 * MIB, 4): 1.5,
    (64 * MIB, 16): 1.5,
    (DEFAULT_DIRTY, 1): 1.0,
    (DEFAULT_DIRTY, 4): 1.0,
    (DEFAULT_DIRTY, 16): 0.7,
}
DURABLE_GOAL = 1.2

SLOWEST = 3600  # seconds of one run

# A text that the checks of `rt try` bring into a program.
INSTRUMENTED = b"attempt to add with overflow"


class Failure(Exception):
    """A contestant failed, or its store holds something else than the writes."""


@dataclass(frozen=True)
class Load:
    """The writes: `ops` of each of the 16 streams, whose streams `workers` threads share. Each has `length` bytes,
    unless they are small."""

    workers: int
    ops: int
    seed: int
    length: int | None = SMALL

    @property
    def commits(self):
        return STREAMS * self.ops

    @property
    def words(self):
        """The words by which the peers name the writes."""
        return ["small" if self.length is SMALL else self.length, self.ops, self.seed]


@dataclass(frozen=True)
class Measured:
    """One run: its wall-clock time in seconds, and the flushes that it counted, if it counts them."""

    seconds: float
    flushes: int | None


def call(words):
    """Runs a program and returns what it wrote on standard output."""
    try:
        done = subprocess.run([str(word) for word in words], capture_output=True, timeout=SLOWEST)
    except (OSError, subprocess.TimeoutExpired) as fault:
        raise Failure(str(fault)) from fault
    if done.returncode != 0:
        told = done.stderr.decode(errors="replace").strip()
        raise Failure(f"{' '.join(map(str, words))}: status {done.returncode}: {told}")
    return done.stdout


def committed(contestant, output, load):
    """The lines 'WORD NUMBER' that a peer printed. The number of its commits has to be that of the load."""
    told = {word: int(number) for word, number in (line.split() for line in output.decode().splitlines())}
    if told.get("committed") != load.commits:
        raise Failure(f"{contestant.name} printed {output.decode()!r}")
    return told


@dataclass(frozen=True)
class Ztxg:
    """`ztxg load` at one dirty limit, on a new pool. With `durable`, that program makes the writes in its place: each
    commit is durable then, and not only each eighth one of a stream. Only that program makes large writes. With
    `is_before` it is an earlier build."""

    program: pathlib.Path
    dirty: int
    size: int
    durable: pathlib.Path | None = None
    is_before: bool = False
    is_log = False

    @property
    def flush(self):
        return EIGHTH if self.durable is None else EACH

    @property
    def name(self):
        build = "before " if self.is_before else ""
        return f"ztxg {build}{limit_name(self.dirty)}{'' if self.durable is None else ' each'}"

    def prepare(self, path, load):
        call([self.program, "create", path, POOL, GUID, self.size])

    def command(self, path, load):
        if self.durable is not None:
            length = [] if load.length is SMALL else [load.length]
            return [self.durable, path, load.workers, load.ops, load.seed, self.dirty, *length]
        numbers = ["--workers", load.workers, "--ops", load.ops, "--seed", load.seed, "--dirty", self.dirty]
        return [self.program, "load", path, *numbers]

    def flushes(self, output, load):
        """None: `load` prints no such count."""
        first = FIRST_SMALL if load.length is SMALL else FIRST_LARGE
        right = f"committed {first + load.commits}\ndigest {digest(load)}\n"
        if output.decode() != right:
            raise Failure(f"{self.name} printed {output.decode()!r}, not {right!r}")
        return None

    def check(self, path, load):
        """The digest that it printed was that of the right contents, so there is no more to compare."""


@dataclass(frozen=True)
class Peer:
    """A store that flushes each commit, or each eighth commit of a stream."""

    program: pathlib.Path
    variant: str
    flush: str
    is_log: bool

    @property
    def name(self):
        return f"{self.store} {self.flush}"

    @property
    def store(self):
        variant = "" if self.variant == "default" else f" {self.variant}"
        return f"{self.program.name}{variant}"

    def prepare(self, path, load):
        call([self.program, "prepare", self.variant, path, *load.words])

    def command(self, path, load):
        return [self.program, "run", self.variant, path, *load.words, load.workers, self.flush]

    def flushes(self, output, load):
        return committed(self, output, load)["flushes"]

    def check(self, path, load):
        call([self.program, "check", self.variant, path, *load.words])


@dataclass(frozen=True)
class Served:
    """A program in C that makes the writes through the library of `clients/c`, over `ztxg serve` at one dirty limit."""

    program: pathlib.Path
    dirty: int
    size: int
    flush: str
    is_log = False

    @property
    def name(self):
        return f"served {limit_name(self.dirty)} {self.flush}"

    def words(self, command, path, load):
        environment = ["env", f"TOPZERAD_PROGRAM={self.program}", f"TOPZERAD_DIRTY={self.dirty}"]
        return [*environment, PEERS / "topzerad", command, "default", path, *load.words]

    def prepare(self, path, load):
        call([self.program, "create", path, POOL, GUID, self.size])
        call(self.words("prepare", path, load))

    def command(self, path, load):
        return [*self.words("run", path, load), load.workers, self.flush]

    def flushes(self, output, load):
        """None: the process that has the pool makes them, and prints no such count."""
        committed(self, output, load)
        return None

    def check(self, path, load):
        call(self.words("check", path, load))


_digests = {}


def digest(load):
    """The digest of a pool that was empty and then loaded."""
    words = tuple(load.words)
    if words not in _digests:
        contents = call([PEERS / "log", "contents", POOL, *words])
        _digests[words] = hashlib.sha256(contents).hexdigest()
    return _digests[words]


def limit_name(dirty):
    return f"{dirty // MIB} MiB" if dirty % MIB == 0 else f"{dirty} B"


def length_name(length):
    if length is SMALL:
        return "small"
    return LARGE.get(length, f"{length:,} bytes")


def writes_name(length):
    """The name with the number of bytes."""
    if length is SMALL:
        return "small writes"
    number = f" ({length:,} bytes)" if length in LARGE else ""
    return f"writes of {length_name(length)}{number}"


def measure(contestant, load, folder):
    """One run on a new store. The making of the store and the comparison afterwards are not timed."""
    place = folder / "run"
    place.mkdir()
    path = place / "store"
    contestant.prepare(path, load)
    os.sync()  # what was written before is not flushed at this contestant's cost
    begin = time.perf_counter()
    output = call(contestant.command(path, load))
    seconds = time.perf_counter() - begin
    flushes = contestant.flushes(output, load)
    contestant.check(path, load)
    shutil.rmtree(place)
    return Measured(seconds, flushes)


@dataclass
class Race:
    """The runs of one load: by contestant, one for each round, and one with no writes."""

    load: Load
    contestants: list
    runs: dict = field(default_factory=dict)
    empty: dict = field(default_factory=dict)

    @property
    def rounds(self):
        return len(self.runs[self.contestants[0]])

    def middle(self, contestant):
        return statistics.median(run.seconds for run in self.runs[contestant])

    def ratios(self, peer, ztxg):
        """Above 1 where `ztxg` was faster, round by round."""
        pairs = zip(self.runs[peer], self.runs[ztxg], strict=True)
        return [theirs.seconds / ours.seconds for theirs, ours in pairs]

    def ztxgs(self, flush):
        return [it for it in self.contestants if isinstance(it, Ztxg) and it.flush == flush and not it.is_before]

    def served(self, flush):
        return [it for it in self.contestants if isinstance(it, Served) and it.flush == flush]

    def rate(self, contestant):
        """Commits a second in the middle of the rounds."""
        return self.load.commits / self.middle(contestant)

    def before(self, ztxg):
        """The earlier build at the same limit, if it ran."""
        earlier = [it for it in self.contestants if isinstance(it, Ztxg) and it.is_before and it.dirty == ztxg.dirty]
        return earlier[0] if earlier else None

    def peers(self, flush, is_log):
        return [it for it in self.contestants if isinstance(it, Peer) and it.flush == flush and it.is_log == is_log]

    def better(self, flush):
        """The store that is no log with the lowest middle time."""
        return min(self.peers(flush, is_log=False), key=self.middle, default=None)


def in_turn(contestants, number):
    """The order of a round: each begins with the next contestant."""
    first = number % len(contestants)
    return contestants[first:] + contestants[:first]


def race(contestants, load, rounds, folder, note, seconds=math.inf):
    """Runs all rounds, of which the second and later ones begin before so many seconds are over. `note(round,
    contestant, measured)` is called after each run, with None for one of no writes."""
    result = Race(load, contestants)
    end = time.monotonic() + seconds
    for contestant in contestants:
        result.runs[contestant] = []
        result.empty[contestant] = measure(contestant, replace(load, ops=0), folder)
        note(None, contestant, result.empty[contestant])
    for number in range(rounds):
        if number and time.monotonic() >= end:
            break
        for contestant in in_turn(contestants, number):
            measured = measure(contestant, load, folder)
            result.runs[contestant].append(measured)
            note(number, contestant, measured)
    return result


# --- What is printed ---


def table(rows):
    """Lines of columns: the first column is at the left, the others at the right. There is at least one row."""
    widths = [max(map(len, column)) for column in zip(*rows, strict=True)]
    for row in rows:
        cells = [row[0].ljust(widths[0]), *(cell.rjust(width) for cell, width in zip(row[1:], widths[1:], strict=True))]
        yield "  ".join(cells).rstrip()


def times(result):
    """The times of one race, in the order of the contestants."""
    yield ["contestant", "seconds", "least", "most", "commits/s", "flushes/commit", "with no writes"]
    for contestant in result.contestants:
        runs = result.runs[contestant]
        seconds = [run.seconds for run in runs]
        counted = [run.flushes / result.load.commits for run in runs if run.flushes is not None]
        yield [
            contestant.name,
            f"{result.middle(contestant):.3f}",
            f"{min(seconds):.3f}",
            f"{max(seconds):.3f}",
            f"{result.rate(contestant):.0f}",
            f"{statistics.median(counted):.3f}" if counted else "-",
            f"{result.empty[contestant].seconds:.3f}",
        ]


def ratio_cell(ratios):
    return f"{statistics.median(ratios):.2f} ({min(ratios):.2f}-{max(ratios):.2f})"


def goal_cell(ratios, goal):
    return f"{goal:.1f} {'met' if statistics.median(ratios) >= goal else 'missed'}"


def goal_of(table, result, ztxg):
    """The goal of a cell, or None."""
    if not table.has_goals:
        return None
    return DURABLE_GOAL if table.ours == EACH else LIKE_GOALS.get((ztxg.dirty, result.load.workers))


def ratio_rows(races, table):
    """For each race and each dirty limit the ratios to each store and to the better of them."""
    races = [result for result in races if table.shows(result)]
    stores = list(dict.fromkeys(peer.store for result in races for peer in result.peers(table.theirs, is_log=False)))
    if not stores:
        return
    yield ["workers, limit", *stores, "better of them", *(["goal"] if table.has_goals else [])]
    for result in races:
        by_store = {peer.store: peer for peer in result.peers(table.theirs, is_log=False)}
        better = result.better(table.theirs)
        for ztxg in table.ours_in(result):
            cells = [ratio_cell(result.ratios(by_store[store], ztxg)) for store in stores]
            ratios = result.ratios(better, ztxg)
            goal = goal_of(table, result, ztxg)
            row = [f"{result.load.workers}, {limit_name(ztxg.dirty)}", *cells, f"{ratio_cell(ratios)} {better.store}"]
            if table.has_goals:
                row.append("-" if goal is None else goal_cell(ratios, goal))
            yield row


def before_rows(races):
    """For each race and each dirty limit the ratio to the earlier build."""
    rows = []
    for result in races:
        for ztxg in result.ztxgs(EIGHTH):
            before = result.before(ztxg)
            if before is not None:
                rows.append([f"{result.load.workers}, {limit_name(ztxg.dirty)}", ratio_cell(result.ratios(before, ztxg))])
    return [["workers, limit", "earlier build"], *rows] if rows else []


def rate_rows(races, table):
    """For each race and each dirty limit the commits a second of a served pool and of the stores."""
    races = [result for result in races if table.is_served and table.shows(result)]
    stores = list(dict.fromkeys(peer.store for result in races for peer in result.peers(table.theirs, is_log=False)))
    if not races:
        return
    yield ["workers, limit", "served", *stores]
    for result in races:
        by_store = {peer.store: peer for peer in result.peers(table.theirs, is_log=False)}
        for served in table.ours_in(result):
            contestants = [served, *(by_store[store] for store in stores)]
            cells = [f"{result.rate(contestant):.0f}" for contestant in contestants]
            yield [f"{result.load.workers}, {limit_name(served.dirty)}", *cells]


def log_rows(result, table):
    """At one worker, the ratios to the plain logs."""
    logs = result.peers(table.theirs, is_log=True)
    if not logs or not table.shows(result):
        return
    yield ["workers, limit", *(log.store for log in logs)]
    for ztxg in table.ours_in(result):
        yield [
            f"{result.load.workers}, {limit_name(ztxg.dirty)}",
            *(ratio_cell(result.ratios(log, ztxg)) for log in logs),
        ]


@dataclass(frozen=True)
class Table:
    """Ratios of the runs of `ztxg` that flush so, beside peers that flush so, with writes of this length. With
    `is_served` the runs are those from C over `ztxg serve`, and the table has commits a second, too."""

    ours: str
    theirs: str
    title: str
    length: int | None = SMALL
    is_served: bool = False

    @property
    def has_goals(self):
        return self.ours == self.theirs and self.length is SMALL and not self.is_served

    def ours_in(self, result):
        return result.served(self.ours) if self.is_served else result.ztxgs(self.ours)

    def shows(self, result):
        return result.load.length == self.length and bool(self.ours_in(result))


FLUSHED = "ztxg and the peers flush before each commit returns."

# Those of small writes.
TABLES = [
    Table(
        EIGHTH,
        EIGHTH,
        "LIKE FOR LIKE: ztxg and the peers flush after each eighth commit of a stream.",
    ),
    Table(
        EACH,
        EACH,
        f"EACH COMMIT DURABLE: {FLUSHED}",
    ),
    Table(
        EIGHTH,
        EACH,
        "UNLIKE: the peers flush after each commit, ztxg after each eighth one of a stream. So ztxg promises less.",
    ),
]


def tables_of(races):
    """Those of small writes, one for each length of large ones that ran, and those of served pools that ran."""
    lengths = dict.fromkeys(result.load.length for result in races)
    large = [length for length in lengths if length is not SMALL]
    each = [Table(EACH, EACH, f"EACH COMMIT DURABLE, {writes_name(it)}: {FLUSHED}", it) for it in large]
    served = [Table(it, it, served_title(it, length), length, True) for length in lengths for it in (EACH, EIGHTH)]
    return [*TABLES, *each, *(it for it in served if any(map(it.shows, races)))]


def served_title(flush, length):
    when = "before each commit returns" if flush == EACH else "after each eighth commit of a stream"
    return f"FROM C, {writes_name(length)}: a program over ztxg serve and the peers flush {when}."


RATIOS = "Ratios are the peer's time by ztxg's in the same round, middle (least-most); above 1 ztxg is faster."
RATES = "Commits a second, in the middle of the rounds."


def report(races, write):
    for result in races:
        load = result.load
        writes = f"{load.commits} {writes_name(load.length)}"
        write(f"\nTIMES of {writes}, W = {load.workers}, middle of {result.rounds} rounds")
        for line in table(list(times(result))):
            write(line)
    if not any(result.ztxgs(flush) or result.served(flush) for result in races for flush in (EACH, EIGHTH)):
        write("\nNo ratios: there was no ztxg.")
        return
    rows = before_rows(races)
    if rows:
        write(f"\nBEFORE: the earlier build in place of a peer.\n{RATIOS}")
        for line in table(rows):
            write(line)
    for kind in tables_of(races):
        ratios = [list(ratio_rows(races, kind)), *(list(log_rows(result, kind)) for result in races)]
        parts = [(RATES, [list(rate_rows(races, kind))]), (RATIOS, ratios)]
        parts = [(said, list(filter(None, tables))) for said, tables in parts if any(tables)]
        if parts:
            write(f"\n{kind.title}")
        for said, tables in parts:
            write(said)
            for line in itertools.chain.from_iterable(map(table, tables)):
                write(line)


# --- Command line ---


def modes_of(options, load):
    """Those of a peer."""
    return [flush for flush in options.flush if load.length is SMALL or flush == EACH]


def contestants_of(options, load):
    """Those that can make this load. A plain log has one thread, and each large write is durable."""
    if options.ztxg is not None:
        if load.length is SMALL:
            for dirty in options.dirty:
                yield Ztxg(options.ztxg, dirty, options.size)
                if options.before is not None:
                    yield Ztxg(options.before, dirty, options.size, is_before=True)
        if options.durable is not None and EACH in options.flush:
            yield Ztxg(options.ztxg, max(options.dirty), options.size, options.durable)
    if options.served is not None:
        for dirty in options.dirty if load.length is SMALL else [max(options.dirty)]:
            for flush in modes_of(options, load):
                yield Served(options.served, dirty, options.size, flush)
    for name in ("sqlite", "rocksdb", "log"):
        program = PEERS / name
        is_log = name == "log"
        if not program.is_file() or (is_log and load.workers != 1):
            continue
        for variant in call([program, "variants"]).decode().split():
            for flush in modes_of(options, load):
                yield Peer(program, variant, flush, is_log)


def chosen(options, load):
    """The contestants whose names have one of the words of --only."""
    words = options.only
    return [it for it in contestants_of(options, load) if not words or any(word in it.name for word in words)]


def file_system(folder):
    """The device and type of the file system of a folder, by /proc/mounts."""
    best = ("", "an unknown device", "an unknown file system")
    with contextlib.suppress(OSError):
        for line in pathlib.Path("/proc/mounts").read_text().splitlines():
            device, mount, kind = line.split()[:3]
            if folder.is_relative_to(mount) and len(mount) >= len(best[0]):
                best = (mount, device, kind)
    return best[1], best[2]


def head(options, folder, write):
    device, kind = file_system(folder)
    load = ", ".join(f"{it:.1f}" for it in os.getloadavg())
    write(f"Files in {folder}, {kind} on {device}; {os.cpu_count()} processors, load average {load}")
    write(f"{options.ops} writes a stream, {STREAMS} streams, seed {options.seed}, {options.rounds} rounds")
    if kind in ("tmpfs", "ramfs"):
        write("WARNING: a flush costs nothing on this file system, so the numbers say nothing about durable commits")
    for name in ("sqlite", "rocksdb"):
        if not (PEERS / name).is_file():
            write(f"{name} was not built, so it isn't measured")


def is_instrumented(program):
    """Whether `rt try` built the program: such a build has checks that a proved one doesn't need."""
    return INSTRUMENTED in program.read_bytes() if program.is_file() else False


def numbers(text):
    return [int(it) for it in text.split(",")]


def lengths(text):
    return [SMALL if it == "small" else int(it) for it in text.split(",")]


def parse(words):
    parser = argparse.ArgumentParser(description=__doc__.split("\n")[0])
    parser.add_argument("--ztxg", type=pathlib.Path, metavar="PROGRAM", help="a built ztxg; without it the peers alone")
    parser.add_argument("--before", type=pathlib.Path, metavar="PROGRAM", help="an earlier built ztxg, which runs in the same rounds")
    parser.add_argument("--durable", type=pathlib.Path, metavar="PROGRAM", help="a built durable_load, for durable commits")
    parser.add_argument("--served", type=pathlib.Path, metavar="PROGRAM", help="a built ztxg that serves a program in C; it needs no --ztxg")
    of_write = "of a write, at most 65497, or small, as ztxg load has them (small,4096,65000)"
    parser.add_argument("--bytes", type=lengths, default=[SMALL, *LARGE], metavar="B,..", help=of_write)
    parser.add_argument("--workers", type=numbers, default=[1, 4, 16], metavar="W,..", help="threads, each 1 to 16 (1,4,16)")
    parser.add_argument("--ops", type=int, default=500, metavar="N", help="writes of each of the 16 streams (%(default)s)")
    parser.add_argument("--seed", type=int, default=5, metavar="S", help="(%(default)s)")
    parser.add_argument("--rounds", type=int, default=5, metavar="R", help="(%(default)s)")
    parser.add_argument("--seconds", type=float, default=math.inf, metavar="T", help="begin no round but the first after")
    parser.add_argument("--dirty", type=numbers, default=[DEFAULT_DIRTY, 64 * MIB], metavar="D,..", help="dirty limits (1048576,67108864)")
    parser.add_argument("--size", type=int, default=256 * MIB, metavar="SIZE", help="bytes of the pool (%(default)s)")
    parser.add_argument("--flush", default=f"{EACH},{EIGHTH}", metavar="each,eighth", help="modes of the peers (%(default)s)")
    parser.add_argument("--only", default="", metavar="WORD,..", help="contestants whose names have one of the words")
    parser.add_argument("--folder", type=pathlib.Path, metavar="DIR", help="where the files lie (bench/out)")
    parser.add_argument("--raw", type=pathlib.Path, metavar="FILE", help="a line for each run, with tabs")
    options = parser.parse_args(words)
    options.flush = options.flush.split(",")
    options.only = [it for it in options.only.split(",") if it]
    if not set(options.flush) <= {EACH, EIGHTH}:
        parser.error("--flush is each, eighth or each,eighth")
    if not all(1 <= it <= STREAMS for it in options.workers) or options.ops < 1 or options.rounds < 1:
        parser.error("workers are 1 to 16, writes and rounds at least 1")
    if not all(it is SMALL or 1 <= it <= LONGEST for it in options.bytes):
        parser.error(f"--bytes has small, or numbers from 1 to {LONGEST}")
    if options.folder is not None and not options.folder.is_dir():
        parser.exit(2, f"run.py: --folder {options.folder} is no folder\n")
    if not (PEERS / "log").is_file():
        parser.error("the peers are not built: make -C bench")
    for name in ("before", "durable"):
        if getattr(options, name) is not None and options.ztxg is None:
            parser.error(f"--{name} needs --ztxg")
    for name in ("ztxg", "before", "durable", "served"):
        program = getattr(options, name)
        if program is not None:
            setattr(options, name, program.resolve())
            if is_instrumented(program):
                parser.error(f"{program} was built by `rt try`, and is half as fast as the gate's: take that of `rt run`")
    return options


class Notes:
    """Progress on standard error, and a line for each run in the file of --raw."""

    def __init__(self, file):
        self.file = file
        self.put("round", "workers", "contestant", "seconds", "flushes", "writes")

    def put(self, *cells):
        if self.file is not None:
            print(*cells, sep="\t", file=self.file, flush=True)

    def of(self, load):
        def note(number, contestant, measured):
            told = "no writes" if number is None else f"round {number + 1}"
            writes = length_name(load.length)
            print(f"{writes}, W = {load.workers}, {told}: {contestant.name} {measured.seconds:.3f} s", file=sys.stderr)
            flushes = "" if measured.flushes is None else measured.flushes
            at = "" if number is None else number + 1
            self.put(at, load.workers, contestant.name, measured.seconds, flushes, writes)

        return note


def main(words):
    options = parse(words)
    parent = options.folder or PEERS
    with contextlib.ExitStack() as stack:
        folder = pathlib.Path(stack.enter_context(tempfile.TemporaryDirectory(prefix="bench-", dir=parent))).resolve()
        notes = Notes(stack.enter_context(options.raw.open("w")) if options.raw else None)
        head(options, folder, print)
        races = []
        loads = [Load(it, options.ops, options.seed, length) for length in options.bytes for it in options.workers]
        for load in loads:
            contestants = chosen(options, load)
            if contestants:
                races.append(race(contestants, load, options.rounds, folder, notes.of(load), options.seconds))
        report(races, print)


if __name__ == "__main__":
    try:
        main(sys.argv[1:])
    except Failure as failure:
        sys.exit(f"run.py: {failure}")
