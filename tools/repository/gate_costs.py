"""Runs the gate, and prints what each crate's proof, tests and edits cost.

Without a COMMAND it runs `rt ci`. What the command prints passes through. Four times a second the processes below it
are read from /proc. The topmost one of the toolchain belongs to a task of a crate, with all that it starts itself. So
nothing counts twice, and the work of several jobs counts with the process that shares it out.

A row has the processor seconds and the wall seconds of a task, its jobs, the load of the machine beside it and the
memory of its largest process. The load is the number of threads that ran or waited for a processor. A task of several
processes, and each of edits, has a row for each process below it.

A chain is a run of tasks of which each waits for the one before, as `rt ci` orders them: proofs for those of the crates
below, tests for the same, and edits for both. Several edits of a crate also wait for a proof that they begin with,
their seed, which waits for the crates below. They lie beside each other, and one more check of the crate ends them. The
longest chain bounds the wall time on any number of processors. The runs of what was built come after all tasks, one by
one, and are in no chain.

The last line sums up, and takes what the proof of `base` costs in the same run for its unit: this holds on any machine.
Times are too high on a busy one, and then the line says so.

`rt ci` keeps what passed. So a run after a change measures what it proves again, and `--with` takes the rest from what
`--json` wrote of an earlier run. The chain is that of both. The wall time is this run's alone.
"""

import contextlib
import json
import os
import pathlib
import re
import resource
import subprocess
import time
from collections import defaultdict
from dataclasses import dataclass
from typing import NamedTuple

from tools import TOP, Failed
from tools.repository.program_crates import crates_of

GATE = ["rt", "ci"]
UNIT = "base"
# Seconds between two looks at the processes.
PERIOD = 0.25
# Other work that takes more processors than this makes the figures too high.
QUIET = 0.1
TICKS = os.sysconf("SC_CLK_TCK")
PAGE = os.sysconf("SC_PAGE_SIZE")
KINDS = ["proof", "tests", "edits", "runs"]
# What several edits of a crate begin with, and what ends them.
SEED, END = "the crate without an edit", "the crate once more"
COMPILERS = {"llvm": "build by LLVM", "rattle": "build by Rattle's own compiler"}
# The folder that `rt ci` checks an edit in, and the copy of what it built that it runs.
EDITED = re.compile(r".*/rt-edit-[^/]*")
COPY = re.compile(r".*/rt-run-[^/]*/bin/(\w+)")


class Work(NamedTuple):
    """What a process works at: a task of a crate, and its part of that."""

    crate: str
    kind: str
    part: str
    jobs: int = 1


def value(words, flag):
    """The word behind a flag, or None."""
    return words[words.index(flag) + 1] if flag in words[:-1] else None


def work_of_check(words, folder):
    """What a call of `rattle` works at, if it proves or builds a crate."""
    crate, jobs = value(words, "--crate-name"), int(value(words, "--jobs") or 1)
    if words[:1] not in (["check"], ["build"]) or not crate:
        return None
    if EDITED.fullmatch(folder):
        return Work(crate, "edits", "check", jobs)
    if "--crate-checked" in words:
        return Work(crate, "proof", COMPILERS.get(value(words, "--backend"), "build"), jobs)
    return Work(crate, "tests" if "--test" in words else "proof", "check", jobs)


def work_of(words, folder):
    """What a process with these words works at in this folder, or None if it is no part of the gate's tasks."""
    # What `rt` starts may still be a shell or Python that is about to become the program behind its own words.
    names = [os.path.basename(word) for word in words]
    if "rattle" in names:
        return work_of_check(words[names.index("rattle") + 1 :], folder)
    if "rattle-link" in names:
        crate, made = os.path.basename(folder), os.path.basename(value(words, "-o") or "")
        return Work(crate, "tests" if made == f"{crate}_tests" else "proof", "link")
    copies = [found[1] for found in map(COPY.fullmatch, words) if found]
    if not copies:
        return None
    tests = "rattle-test" in names
    return Work(re.sub("_tests$", "", copies[0]) if tests else copies[0], "runs", "tests" if tests else "program")


class Stat(NamedTuple):
    """What /proc says of a process. Its seconds have those of the processes that it started and waited for."""

    parent: int
    seconds: float
    start: float
    memory: int


def stat_of(line):
    """Reads a line of /proc/PID/stat, as proc(5) numbers its fields."""
    # The second field is a name in brackets, which may have spaces and brackets itself.
    fields = [None, None, None, *line.rpartition(")")[2].split()]
    seconds = sum(map(int, fields[14:18])) / TICKS
    return Stat(int(fields[4]), seconds, int(fields[22]) / TICKS, int(fields[24]) * PAGE)


def read_stats():
    """What /proc says of each process."""
    stats = {}
    for name in filter(str.isdigit, os.listdir("/proc")):
        # It may have ended meanwhile.
        with contextlib.suppress(OSError):
            stats[int(name)] = stat_of(pathlib.Path("/proc", name, "stat").read_text(errors="replace"))
    return stats


def read_work(process):
    """What a process works at, by /proc."""
    with contextlib.suppress(OSError):
        words = pathlib.Path(f"/proc/{process}/cmdline").read_bytes().decode(errors="replace").split("\0")[:-1]
        return work_of(words, os.readlink(f"/proc/{process}/cwd"))
    return None


def read_load():
    """The number of threads that run or wait for a processor, without this one."""
    return int(pathlib.Path("/proc/loadavg").read_text().split()[3].partition("/")[0]) - 1


class Clocks(NamedTuple):
    """Seconds: of a clock, of this process, of those that it waited for, and of all that the processors were busy with.

    The last are those that the host of a virtual machine took from the processors.
    """

    wall: float
    own: float
    children: float
    busy: float
    stolen: float


def read_clocks():
    ticks = [int(word) for word in pathlib.Path("/proc/stat").read_text().split("\n", 1)[0].split()[1:]]
    user, nice, system, _, _, irq, softirq, stolen = ticks[:8]
    used = resource.getrusage(resource.RUSAGE_CHILDREN)
    children, busy = used.ru_utime + used.ru_stime, user + nice + system + irq + softirq
    return Clocks(time.monotonic(), time.process_time(), children, busy / TICKS, stolen / TICKS)


@dataclass
class Process:
    """A topmost process of the toolchain with all that it started, as far as it was seen."""

    work: Work
    start: float
    end: float
    seconds: float = 0.0
    memory: int = 0
    load: float = 0.0
    looks: int = 0

    @property
    def wall(self):
        return self.end - self.start

    @property
    def jobs(self):
        return self.work.jobs

    def note(self, now, seconds, memory, load):
        self.end, self.looks = now, self.looks + 1
        self.seconds, self.memory = max(self.seconds, seconds), max(self.memory, memory)
        self.load += (load - self.load) / self.looks


class Record:
    """The toolchain's processes below one process, look by look."""

    def __init__(self, root, read_work=read_work):
        self.root, self.read_work = root, read_work
        self.seen, self.lanes = {}, 0

    def process(self, number, start):
        """The process of this number if it is one of the toolchain's. A number may be used again."""
        key = number, start
        if key not in self.seen:
            work = self.read_work(number)
            if work is None:
                return None
            self.seen[key] = Process(work, start, start)
        return self.seen[key]

    def look(self, now, stats, load):
        """Notes what is there now."""
        children = defaultdict(list)
        for number, stat in stats.items():
            children[stat.parent].append(number)
        left, lanes = [self.root], 0
        while left:
            number = left.pop()
            process = self.process(number, stats[number].start)
            if process is None:
                left += children[number]
                continue
            tree = [stats[it] for it in self.below(number, children)]
            process.note(now, sum(it.seconds for it in tree), max(it.memory for it in tree), load)
            lanes += 1
        self.lanes = max(self.lanes, lanes)

    @staticmethod
    def below(number, children):
        """A process and all that it started."""
        found = [number]
        for it in found:
            found += children[it]
        return found

    def processes(self):
        return sorted(self.seen.values(), key=lambda process: process.start)


@dataclass
class Run:
    """A run of the gate: its processes, and what it took as a whole."""

    status: int
    processes: list
    lanes: int
    wall: float
    seconds: float
    # The processors that other work took on average, and that the host of a virtual machine did.
    others: float
    stolen: float


def measured(command, folder):
    """Runs a command in a folder, and looks at its processes until it ends."""
    before = read_clocks()
    try:
        started = subprocess.Popen(command, cwd=folder)
    except OSError as error:
        raise Failed(f"{command[0]} can't be run in {folder}: {error.strerror}", 2) from error
    with started:
        record = Record(started.pid)
        while started.poll() is None:
            record.look(time.clock_gettime(time.CLOCK_BOOTTIME), read_stats(), read_load())
            time.sleep(PERIOD)
    took = Clocks(*(now - then for now, then in zip(read_clocks(), before)))
    shares = max(took.busy - took.children - took.own, 0) / took.wall, took.stolen / took.wall
    return Run(started.returncode, record.processes(), record.lanes, took.wall, took.children, *shares)


def name_of(crate, kind):
    return crate if kind == "proof" else f"{crate}'s {kind}"


@dataclass
class Task:
    """A task of a crate, with its processes and a name for each."""

    crate: str
    kind: str
    processes: list
    parts: list

    @property
    def name(self):
        return name_of(self.crate, self.kind)

    @property
    def seconds(self):
        return sum(process.seconds for process in self.processes)

    @property
    def wall(self):
        """From the start of its first process to the end of its last: one lane runs them."""
        return max(process.end for process in self.processes) - self.processes[0].start

    @property
    def load(self):
        looks = sum(process.looks for process in self.processes)
        return sum(process.load * process.looks for process in self.processes) / max(looks, 1)

    @property
    def jobs(self):
        return max(process.jobs for process in self.processes)

    @property
    def memory(self):
        return max(process.memory for process in self.processes)


def edit_names(folder, crate):
    """The edits of a crate, in the order that `rt ci` tries them."""
    names = sorted(path.name for path in pathlib.Path(folder, "crates", crate, "must-fail").glob("*.edit"))
    return [name[: -len(".edit")] for name in names]


def checked_edits(names, count):
    """What each of so many checks of edits judged."""
    # What was not refused is checked again from nothing.
    known = [SEED, *names, END] if len(names) > 1 else names
    return (known + ["again, from nothing"] * count)[:count]


def tasks_of(processes, crates, folder):
    """The tasks that processes work at, by crate and kind, in the order of the crates."""
    found = defaultdict(list)
    for process in processes:
        found[process.work.crate, process.work.kind].append(process)
    place, tasks = {crate: at for at, crate in enumerate(crates)}, {}
    for crate, kind in sorted(found, key=lambda key: (place.get(key[0], len(place)), KINDS.index(key[1]))):
        own = found[crate, kind]
        parts = [process.work.part for process in own]
        if kind == "edits":
            parts = checked_edits(edit_names(folder, crate), len(own))
        tasks[crate, kind] = Task(crate, kind, own, parts)
    return tasks


def libraries(text):
    """The crates of a crates.txt in their order, each with those of them that it uses."""
    lines = [line for line in text.splitlines() if line.partition("#")[0].strip()]
    used = {line.partition(":")[0].split()[0]: crates_of(line) for line in lines}
    return {crate: [it for it in below if it in used] for crate, below in used.items()}


def waits_of(crates):
    """Each task with those that it waits for, as `rt ci` orders them."""
    waits = {}
    for crate, used in crates.items():
        for kind in ("proof", "tests", "seed"):
            waits[crate, kind] = [(it, "proof") for it in used]
        waits[crate, "edits"] = [(crate, kind) for kind in ("proof", "tests", "seed")]
    return waits


def longest_chain(waits, costs):
    """The dearest tasks of which each waits for the one before, the first one first."""
    chains = {}

    def cost(chain):
        return sum(costs[task] for task in chain)

    def chain_to(task):
        if task not in chains:
            before = max(map(chain_to, waits[task]), key=cost, default=[])
            chains[task] = before + [task] * (task in costs)
        return chains[task]

    return max(map(chain_to, waits), key=cost, default=[])


class Chain(NamedTuple):
    """The longest chain by a measure, in seconds."""

    tasks: list
    seconds: float
    unit: float

    def text(self):
        times = f" = {self.seconds / self.unit:.1f} times {UNIT}" if self.unit else ""
        return f"{self.seconds / 60:.1f} minutes{times}: {', '.join(self.tasks)}"


def costs_by(measure, task):
    """What a task takes of a chain, by `seconds` or `wall`: edits have two parts, of which the first waits for less."""
    if task.kind != "edits":
        return {(task.crate, task.kind): getattr(task, measure)}
    costs = {part: getattr(process, measure) for part, process in zip(task.parts, task.processes)}
    seed, end = costs.pop(SEED, 0.0), costs.pop(END, 0.0)
    return {(task.crate, "seed"): seed, (task.crate, "edits"): max(costs.values(), default=0.0) + end}


def chain_by(measure, tasks, crates):
    """The longest chain by `seconds` or `wall` of the tasks."""
    costs = {}
    for task in tasks.values():
        if task.kind != "runs":
            costs |= costs_by(measure, task)
    chain = longest_chain(waits_of(crates), costs)
    unit = costs.get((UNIT, "proof"), 0.0)
    return Chain([name_of(*key) for key in chain], sum(costs[key] for key in chain), unit)


def earlier_task(data):
    """A task of an earlier run, as `as_data` wrote it."""
    processes = [
        Process(
            Work(data["crate"], data["kind"], of["part"], of["jobs"]),
            of["start"],
            of["start"] + of["wall"],
            of["seconds"],
            of["memory"],
            of["load"],
            1,
        )
        for of in data["processes"]
    ]
    return Task(data["crate"], data["kind"], processes, [of["part"] for of in data["processes"]])


def with_earlier(tasks, data, crates):
    """These tasks, with those of an earlier run that this one kept, in the order of the crates."""
    kept = {(it["crate"], it["kind"]): earlier_task(it) for it in data["tasks"] if it["kind"] != "runs"}
    both = kept | tasks
    return {(crate, kind): both[crate, kind] for crate in crates for kind in KINDS if (crate, kind) in both}


def processors():
    """The processors that there are to use: those that a process may run on, or fewer by a quota."""
    found = len(os.sched_getaffinity(0))
    with contextlib.suppress(OSError, ValueError):
        quota, period = pathlib.Path("/sys/fs/cgroup/cpu.max").read_text().split()
        found = min(found, max(int(quota) // int(period), 1))
    return found


def line_of(of, name):
    """A line of the table, of a task or of a process."""
    return f"{of.seconds:11.1f} {of.wall:8.1f} {of.jobs:4} {of.load:5.1f} {of.memory / 1e6:6.0f}  {name}"


def lines_of(tasks):
    """The table."""
    yield f"{'processor s':>11} {'wall s':>8} jobs {'load':>5} {'MB':>6}  task"
    for task in tasks.values():
        yield line_of(task, task.name)
        if len(task.processes) > 1 or task.kind == "edits":
            yield from (line_of(process, f"  {part}") for process, part in zip(task.processes, task.parts))


def sum_of(tasks):
    return sum(task.seconds for task in tasks.values())


def busy_text(run):
    """What the machine did besides, if it was not quiet."""
    said = [f"other work took {run.others:.1f} processors"] * (run.others > QUIET)
    said += [f"the machine's host took {run.stolen:.1f}"] * (run.stolen > QUIET)
    return f"; UNDER LOAD, so times are too high: {', '.join(said)}" if said else ""


def summary(run, tasks, chain, earlier=0.0):
    """The line that a note can quote. So many seconds are of an earlier run."""
    failed = f"FAILED with status {run.status}, so a part alone was measured: " if run.status else ""
    times = f", {sum_of(tasks) / chain.unit:.1f} times {UNIT} ({chain.unit:.0f} s)" if chain.unit else ""
    before = f" ({earlier / 60:.1f} of them in an earlier run)" if earlier else ""
    sums = f"{sum_of(tasks) / 60:.1f} processor minutes{before}, {run.wall / 60:.1f} wall"
    lanes = f"{processors()} processors with {run.lanes} lanes"
    return f"gate: {failed}{sums} on {lanes}{times}, chain {chain.text()}{busy_text(run)}"


def notes_of(run, tasks, chains):
    """The lines below the table, but for the last."""
    share = 100 * sum_of(tasks) / run.seconds
    yield f"all processes of the run: {run.seconds:.1f} processor seconds, and the table has {share:.1f} % of them"
    processes = run.processes
    span = max(process.end for process in processes) - min(process.start for process in processes)
    side = sum(process.wall for process in processes) / max(span, PERIOD)
    yield f"processes of the table side by side: {side:.1f} on average, {run.lanes} at most"
    last = sum(task.wall for task in tasks.values() if task.kind == "runs")
    yield f"runs of what was built, one by one behind all tasks: {last / 60:.1f} minutes of wall time"
    yield from (f"chain by {name}: {chain.text()}" for name, chain in chains.items())


def as_data(run, tasks, chains, line):
    """The whole measure, for JSON. Starts are seconds after that of the first process."""
    first = min(process.start for process in run.processes)

    def numbers(of):
        return {name: round(getattr(of, name), 3) for name in ("seconds", "wall", "jobs", "load", "memory")}

    def process(of, part):
        return {"part": part, "start": round(of.start - first, 3), **numbers(of)}

    def task(of):
        below = [process(*pair) for pair in zip(of.processes, of.parts)]
        return {"crate": of.crate, "kind": of.kind, **numbers(of), "processes": below}

    whole = {name: getattr(run, name) for name in ("status", "lanes", "wall", "seconds", "others", "stolen")}
    named = {name: chain._asdict() for name, chain in chains.items()}
    return {"line": line, "processors": processors(), **whole, "chains": named, "tasks": [*map(task, tasks.values())]}


def add_arguments(parser):
    parser.add_argument("command", metavar="COMMAND", nargs="*", default=GATE, help="runs it in the place of `rt ci`")
    text = "the top of the repository, if it is another: in a clone `rt ci` leaves the work alone that is kept here"
    parser.add_argument("--in", dest="folder", type=pathlib.Path, default=TOP, help=text)
    parser.add_argument("--json", dest="file", type=pathlib.Path, help="the file that gets the whole table")
    text = "what --json wrote of an earlier run on this machine, for the tasks that this run keeps"
    parser.add_argument("--with", dest="earlier", type=pathlib.Path, help=text)


def read_earlier(path):
    """What `--json` wrote of an earlier run."""
    try:
        return json.loads(path.read_text())
    except (OSError, ValueError) as error:
        raise Failed(f"{path} is no table of an earlier run: {error}", 2) from error


def main(command, folder, file, earlier):
    try:
        crates = libraries((folder / "crates.txt").read_text())
    except OSError as error:
        raise Failed(f"{folder} is not the top of a repository: {error}", 2) from error
    before = read_earlier(earlier) if earlier else {"tasks": []}
    run = measured(command, folder)
    # So it is if `rt ci` keeps every proof from earlier runs.
    if not run.processes:
        print(f"no proof was seen, and the status was {run.status}", flush=True)
        return int(run.status != 0)
    own = tasks_of(run.processes, crates, folder)
    tasks = with_earlier(own, before, crates) if earlier else own
    measures = {"processor seconds": "seconds", "wall time": "wall"}
    chains = {name: chain_by(measure, tasks, crates) for name, measure in measures.items()}
    line = summary(run, tasks, chains["processor seconds"], sum_of(tasks) - sum_of(own))
    print("", *lines_of(tasks), "", *notes_of(run, own, chains), line, sep="\n", flush=True)
    if file:
        file.write_text(json.dumps(as_data(run, tasks, chains, line), indent=1) + "\n")
    return int(run.status != 0)
