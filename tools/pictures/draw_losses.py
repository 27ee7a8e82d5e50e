"""Draws how many acknowledged writes are lost at power cuts by a plain file, by SQLite and by a pool.

With --run it takes the data first: each program makes its writes, and its calls on its files are noted. `cc` compiles
what notes them (`tools/harness/shims/calls.c`). Then power cuts between any two calls are simulated, and each program
reads what they leave (`tools/harness/power_cuts.py`, `tools/harness/writers.py`). The data go into the file of --data.
Without --run they come from it. If --data isn't given, the file is `docs/pictures/losses.json`.

Three programs are drawn. Two more flush after each write: they show that the same cuts lose nothing then.
"""

import argparse
import json
import pathlib
import random
import sqlite3
import tempfile

from tools import TOP, Failed
from tools.harness import shims
from tools.harness.pool_files import IN_MEMORY
from tools.harness.power_cuts import SECTOR, Recorder, cuts, put_files, read_files
from tools.harness.program import built, run as run_program
from tools.harness.svg import INK, PALE, Picture, short, shown, write_file
from tools.harness.writers import LENGTH, PlainFile, Pool, Sqlite

DATA = TOP / "docs/pictures/losses.json"
WRITES = 200

# The data


def programs(ztxg):
    """Those that are drawn, and those that flush."""
    unflushed = [PlainFile("Plain file, no flush", False), Sqlite("SQLite, synchronous=OFF", "OFF")]
    flushed = [PlainFile("the plain file", True), Sqlite("SQLite with synchronous=FULL", "FULL")]
    return [*unflushed, Pool("Pool of Topzerad", ztxg)], flushed


def take(program, shim, contents, count, chance):
    """What each cut of a program's run loses, in the order of the run."""
    with tempfile.TemporaryDirectory(dir=IN_MEMORY) as room:
        own, notes, image = (pathlib.Path(room, name) for name in ("own", "notes", "image"))
        for folder in (own, notes, image):
            folder.mkdir()
        program.prepare(own)
        before, recorder = read_files(own), Recorder(shim, notes)
        program.write(own, contents, recorder.environment())
        calls = recorder.calls()
        outputs = sum(call.name == "output" for call in calls) - program.first_outputs
        if outputs != len(contents):
            raise Failed(f"{program.title}: {outputs} answers to {len(contents)} writes", status=2)
        taken = {"title": program.title, "acknowledged": [], "lost": [], "damaged": 0}
        for made, files in cuts(before, calls, count, chance):
            acknowledged = max(made - program.first_outputs, 0)
            put_files(image, files)
            found, is_damaged = program.read(image, acknowledged)
            taken["acknowledged"].append(acknowledged)
            taken["lost"].append(sum(found.get(at) != contents[at] for at in range(acknowledged)))
            taken["damaged"] += is_damaged
    return taken


def take_all(ztxg, count, seed, writes=WRITES):
    """The data of all programs."""
    chance = random.Random(seed)
    contents = [chance.randbytes(LENGTH) for _ in range(writes)]
    data = {"seed": seed, "cuts": count, "writes": writes, "bytes": LENGTH, "sector": SECTOR}
    data["sqlite"], data["ztxg"] = sqlite3.sqlite_version, run_program([ztxg, "--version"]).text().strip()
    with shims.compiled("calls") as shim:
        for name, group in zip(("drawn", "flushed"), programs(ztxg)):
            data[name] = []
            for program in group:
                own = random.Random(f"{seed} {program.title}")
                data[name].append(take(program, shim, contents, count, own))
    return data


def said(taken):
    """A line of what a program lost."""
    total, lost = sum(taken["acknowledged"]), sum(taken["lost"])
    at = sum(number > 0 for number in taken["lost"])
    found = f"{at} of {len(taken['lost'])} cuts, {taken['damaged']} times damaged"
    return f"{taken['title']}: {shown(lost)} of {shown(total)} acknowledged writes lost, at {found}"


# The picture

SIZE, TOP_OF, LEFT, STEP = 236, 104, 74, 284
WIDTH, HEIGHT = 912, 520
DOT = "#1f5fa8"


class Panel:
    """The field of a program: how many writes were acknowledged before a cut, and how many of them it lost."""

    def __init__(self, picture, left, writes):
        self.picture, self.left, self.writes = picture, left, writes
        self.bottom = TOP_OF + SIZE

    def x(self, number):
        return self.left + SIZE * number / self.writes

    def y(self, number):
        return self.bottom - SIZE * number / self.writes

    def axes(self, ticks, has_title):
        end = {"text_anchor": "end"}
        for tick in ticks:
            x, y = self.x(tick), self.y(tick)
            self.picture.line(self.left, y, self.left + SIZE, y, stroke=PALE, stroke_width=0.6)
            self.picture.line(x, TOP_OF, x, self.bottom, stroke=PALE, stroke_width=0.6)
            self.picture.write(self.left - 7, y + 4, shown(tick), 11, **end)
            self.picture.write(x, self.bottom + 17, shown(tick), 11, text_anchor="middle")
        middle = self.left + SIZE / 2
        self.picture.write(middle, self.bottom + 36, "acknowledged before the cut", 12, text_anchor="middle")
        if has_title:
            turned = f"rotate(-90 {self.left - 44} {TOP_OF + SIZE / 2})"
            place = {"text_anchor": "middle", "transform": turned}
            self.picture.write(self.left - 44, TOP_OF + SIZE / 2, "writes lost of these", 12, **place)

    def limit(self):
        """The line on which all is lost."""
        self.picture.line(self.left, self.bottom, self.left + SIZE, TOP_OF, stroke_dasharray="5 4", stroke_width=1)
        x, y = self.x(self.writes * 0.52), self.y(self.writes * 0.52)
        turned = f"rotate(-45 {short(x)} {short(y)})"
        self.picture.write(x, y - 6, "all lost", 11, transform=turned, text_anchor="middle")

    def dots(self, taken):
        """A dot for each cut. Equal ones are one dot."""
        places = sorted(set(zip(taken["acknowledged"], taken["lost"])))
        path = "".join(f"M{short(self.x(x))} {short(self.y(y))}h0" for x, y in places)
        how = {"stroke": DOT, "stroke_width": 4, "stroke_linecap": "round", "stroke_opacity": 0.75}
        self.picture.add("path", d=path, fill="none", **how)

        if not any(taken["lost"]):
            middle = self.left + SIZE / 2
            self.picture.write(middle, self.bottom - 10, "all dots lie on 0", 11, text_anchor="middle")

    def sums(self, taken, is_checked):
        total, lost = sum(taken["acknowledged"]), sum(taken["lost"])
        share = f"{100 * lost / max(total, 1):.1f} % lost" if lost else "none lost"
        at, cuts_made = sum(number > 0 for number in taken["lost"]), len(taken["lost"])
        lines = [f"{shown(lost)} of {shown(total)} writes", f"a loss at {shown(at)} of {shown(cuts_made)} cuts"]
        if is_checked:
            lines.append(f"own check: damaged at {shown(taken['damaged'])} cuts")
        self.picture.write(self.left, self.bottom + 68, share, 19, font_weight="bold")
        for number, line in enumerate(lines):
            self.picture.write(self.left, self.bottom + 88 + 17 * number, line, 12)


def drawn(data):
    """The picture of data."""
    writes, count = data["writes"], shown(data["cuts"])
    title = "Acknowledged writes that a power cut loses"
    picture = Picture(WIDTH, HEIGHT, title, ". ".join(said(one) for one in [*data["drawn"], *data["flushed"]]) + ".")
    picture.write(30, 38, title, 20, font_weight="bold")
    below = f"{writes} writes of {data['bytes']} bytes, each acknowledged before the next one. "
    picture.write(30, 60, below + f"A dot is one of {count} simulated power cuts of each program.", 13)
    ticks = range(0, writes + 1, max(writes // 4, 1))
    for number, taken in enumerate(data["drawn"]):
        panel = Panel(picture, LEFT + STEP * number, writes)
        picture.write(panel.left, TOP_OF - 14, taken["title"], 14, font_weight="bold")
        panel.axes(ticks, number == 0)
        panel.limit()
        picture.line(panel.left, TOP_OF, panel.left, panel.bottom, stroke=INK)
        picture.line(panel.left, panel.bottom, panel.left + SIZE, panel.bottom, stroke=INK)
        panel.dots(taken)
        panel.sums(taken, number > 0)
    flushed = [(shown(sum(one["lost"])), shown(sum(one["acknowledged"])), one["title"]) for one in data["flushed"]]
    feet = " and ".join(f"{lost} of {total} by {name}" for lost, total, name in flushed)
    foot = f"With a flush after each write such cuts lose {feet}."
    model = f"At a cut each sector of {data['sector']} bytes that no flush has stored is there or not, by a chance "
    for number, line in enumerate([foot, model + "that is drawn for each cut."]):
        picture.write(30, HEIGHT - 36 + 18 * number, line, 11.5)
    return picture.text()


def count(word):
    """A number of at least 1."""
    number = int(word)
    if number < 1:
        raise argparse.ArgumentTypeError(f"{word} is less than 1")
    return number


def add_arguments(parser):
    parser.add_argument("out", metavar="OUT.svg", type=pathlib.Path, help="the picture")
    parser.add_argument("--run", type=built, help="a built ztxg: takes the data anew")
    parser.add_argument("--cuts", type=count, default=1_000, help="of each program (1000)")
    parser.add_argument("--seed", type=int, default=1, help="of the chance (1)")
    parser.add_argument("--data", type=pathlib.Path, default=DATA, help="the file of the data")


def main(out, run, cuts, seed, data):
    if run:
        taken = take_all(run, cuts, seed)
        write_file(data, json.dumps(taken, separators=(",", ":")).replace('{"title"', '\n{"title"') + "\n")
    try:
        taken = json.loads(data.read_text())
        picture = drawn(taken)
    except OSError as error:
        raise Failed(f"{error}: --run ZTXG makes the data", status=2) from None
    except (ValueError, KeyError, TypeError) as error:
        raise Failed(f"{data} has no data of losses: {error!r}", status=2) from None
    write_file(out, picture)
    print(f"seed {taken['seed']}, SQLite {taken['sqlite']}, {taken['ztxg']}")
    print("\n".join(said(one) for one in [*taken["drawn"], *taken["flushed"]]))
