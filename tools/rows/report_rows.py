"""The rows of `tools commands` on sizes with a letter, on `create --size`, and on reports: `ls -l`, `df` and `--json`.

What is expected follows from `docs/COMMANDS.md`, and what a file holds from `tools/model`. Each row runs on a judge of
`tools/checks/commands.py`.
"""

import json
import os
import pathlib
import re
import time

from tools.model import layout
from tools.model.formats import TEXT
from tools.model.layout import AREA, BLOCK, CONFIG_AT, LABEL, MIB, slot_places
from tools.model.pool_bytes import number_at
from tools.model.pool_image import Image, free_places, mount, read_pool

SIZE = 8 * MIB
# What the page says of a bad size, without the size, the word, and what the parser ends each fault with.
FAULT = re.search("`error: invalid value '64m' for '<SIZE>': (.*?)`", TEXT)[1]


def fault(text, word):
    """What is printed of a word that is no number of bytes."""
    return f"error: invalid value '{text}' for '{word}': {FAULT}\n\nFor more information, try '--help'.\n"


def held(file):
    """The pool in a file, as the model reads it."""
    return mount(read_pool(Image(pathlib.Path(file).read_bytes())))


def most_blocks(length):
    """The most blocks of an object: data, indirect blocks, and a top above one level."""
    return -(-length // layout.RECORD) + -(-length // layout.STRIP) + (length > layout.STRIP)


def size_rows(judge):
    """A number of bytes may end with K, M, G or T. Other texts are faults, which name the value and the limit."""
    for size, blocks in [("8M", 896), ("8192K", 896), ("8388608", 896), ("16M", 2944)]:
        judge.ends(["create", "size.pool", "tank", "77", size], 0, f"created tank {blocks} blocks\n")
    name = judge.make("size.pool")
    judge.put(["put", name, "1", "--offset", "4K"], "abcd")
    judge.ends(["get", name, "1", "--offset", "4K", "--length", "1K"], 0, "abcd")
    judge.ends(["script", "8M", "-"], 0, "ok\n", script="create tank 77\n")
    load = ["load", name, "--workers", "1", "--ops", "0", "--seed", "5", "--dirty"]
    if judge.run([*load, "1M"])[0]:
        judge.differ("a load with --dirty 1M is refused")
    judge.ends([*load, "2T"], 1, errors="ztxg: refused 11 BadRange\n")
    for size in ("2G", "1T"):
        judge.ends(["create", name, "tank", "77", size], 1, errors="ztxg: refused 8 BadGeometry\n")
    cause = f"ztxg: refused 8 BadGeometry\nztxg: cause: size {2**31}: 6291456 to 1073741824 bytes in steps of 262144\n"
    judge.ends(["create", name, "tank", "77", "2G"], 1, errors=cause, quiet=False)
    made = pathlib.Path(name).read_bytes()
    for text in ["64m", "8Q", "M", "8 M", "8MB", "0x8", "16777216T", "18446744073709551616", "", "\x1b8"]:
        for words, word in [
            (["create", name, "tank", "77", text], "<SIZE>"),
            (["script", text, "-"], "<SIZE>"),
            (["get", name, "1", f"--offset={text}"], "--offset <O>"),
            (["get", name, "1", f"--length={text}"], "--length <L>"),
            (["put", name, "1", f"--offset={text}"], "--offset <O>"),
            ([*load[:-1], f"--dirty={text}"], "--dirty <D>"),
            (["serve", name, f"--dirty={text}"], "--dirty <D>"),
            (["create", name, f"--size={text}"], "--size <SIZE>"),
            (["bench", f"--bytes={text}"], "--bytes <B>"),
        ]:
            # An option without any text is a fault that `clap` names.
            if text or "=" not in words[-1]:
                judge.ends(words, 2, errors=fault(text.replace("\x1b", "\\x1b"), word), quiet=False)
    if pathlib.Path(name).read_bytes() != made:
        judge.differ("a bad size changes the file")


def in_powers(count):
    """A number of bytes as `df -h` has it."""
    for power, letter in ((3, "G"), (2, "M"), (1, "K")):
        unit = 1024**power
        if count >= unit:
            return f"{count // unit}.{count % unit * 10 // unit}{letter}"
    return str(count)


def space_rows(judge):
    """`ls -l` adds the most blocks, and `df` has four lines of bytes."""
    name = judge.make("space.pool")
    lengths = {1: 0, 2: 1, 3: layout.RECORD, 4: layout.RECORD + 1, 5: layout.STRIP, 6: layout.STRIP + 1}
    for number, length in lengths.items():
        judge.put(["put", name, str(number)], "a" * length)
    lines = "".join(f"{number} {length} {most_blocks(length)}\n" for number, length in lengths.items())
    for long in ("-l", "--long"):
        judge.ends(["ls", name, long], 0, lines)
    free = len(free_places(held(name)))
    counts = {"total": 896, "used": 896 - free, "free": free, "available": free - 16}
    judge.ends(["df", name], 0, "".join(f"{word} {BLOCK * count}\n" for word, count in counts.items()))
    lines = "".join(f"{word} {in_powers(BLOCK * count)}\n" for word, count in counts.items())
    for option in ("-h", "--human-readable"):
        judge.ends(["df", name, option], 0, lines)
    judge.ends(["df", judge.make("new.pool"), "-h"], 0, "total 3.5M\nused 0\nfree 3.5M\navailable 3.4M\n")
    os.remove("new.pool")


def sized_rows(judge, sync, flawed):
    """`create --size` names the pool after its file, draws a guid, and replaces no pool without `--force`."""
    os.mkdir("sized")
    for file, name in [("tank.pool", "tank"), ("a.b.pool", "a.b"), ("tank", "tank"), ("4.pool", "pool"), (".x", "pool")]:
        path = f"sized/{file}"
        judge.ends(["create", path, "--size", "8M"], 0, f"created {name} 896 blocks\n")
        if (found := held(path).name) != name.encode():
            judge.differ(path, "has the name", found)
    path = "sized/tank.pool"
    guids = {held(f"sized/{file}").uberblock.guid for file in os.listdir("sized")}
    if len(guids) != len(os.listdir("sized")):
        judge.differ("guids are drawn twice", guids)
    moment = number_at(pathlib.Path(path).read_bytes(), slot_places(SIZE, 4)[0] + 32)
    if abs(moment - time.time()) > 600:
        judge.differ("a create has the moment", moment)
    words = ["create", path, "--name", "pond", "--guid", "5", "--moment", "7", "--size"]
    made = pathlib.Path(path).read_bytes()
    refused = f"ztxg: cannot use {path}\n"
    cause = "ztxg: cause: it has a pool, which is replaced with --force alone\n"
    judge.ends([*words, "8M"], 3, errors=refused)
    judge.ends([*words, "8M"], 3, errors=refused + cause, quiet=False)
    judge.ends([*words, "16M"], 3, errors=refused)
    judge.ends([*words, "7000000"], 1, errors="ztxg: refused 8 BadGeometry\n")
    judge.ends(["create", path, "--size", "8M", "--name", "4"], 1, errors="ztxg: refused 11 BadRange\n")
    judge.ends([*words, "8M", "--new"], 3, errors=refused)
    if pathlib.Path(path).read_bytes() != made:
        judge.differ("a refused create --size changes its file")
    # A damaged pool is one, and so is a label's config alone.
    damaged = judge.make("sized/damaged.pool", sync)
    flawed(damaged, AREA + BLOCK + 64)
    lone = judge.make("sized/lone.pool")
    with open(lone, "r+b") as file:
        for at in (0, LABEL, SIZE - 2 * LABEL):
            file.seek(at)
            file.write(bytes(LABEL))
        file.seek(SIZE - LABEL + CONFIG_AT + BLOCK)
        file.write(bytes(LABEL - CONFIG_AT - BLOCK))
    judge.ends(["show", lone], 1, errors="ztxg: refused 6 NoPool\n")
    # So is a pool whose file was cut or lengthened, also to a size that no pool may have.
    sizes = (LABEL, 6 * MIB, SIZE - 512, SIZE + 512, 16 * MIB)
    resized = [judge.make(f"sized/resized_{size}.pool") for size in sizes]
    for name, size in zip(resized, sizes):
        os.truncate(name, size)
    for name in (damaged, lone, *resized):
        judge.ends(["create", name, "--size", "8M"], 3, errors=f"ztxg: cannot use {name}\n")
    os.truncate(resized[0], CONFIG_AT)
    judge.ends(["create", resized[0], "--size", "8M", "--name", "a"], 0, "created a 896 blocks\n", quiet=False)
    judge.ends([*words, "8M", "--force"], 0, "created pond 896 blocks\n", quiet=False)
    other = "sized/pond.pool"
    judge.ends(["create", other, "pond", "5", "8388608", "--moment", "7"], 0, "created pond 896 blocks\n", quiet=False)
    if pathlib.Path(other).read_bytes()[LABEL:] != pathlib.Path(path).read_bytes()[LABEL:]:
        judge.differ("create --size and create by four words make different pools")
    # The form of four words replaces a pool, and says so.
    warned = f"ztxg: {other} has a pool, which is replaced\n"
    judge.ends(["create", other, "tank", "77", "8M"], 0, "created tank 896 blocks\n", warned, quiet=False)
    judge.ends(["create", other, "tank", "77", "8M"], 0, "created tank 896 blocks\n")
    pathlib.Path("sized/zeros.pool").write_bytes(bytes(SIZE))
    judge.ends(["create", "sized/zeros.pool", "--size", "8M"], 0, "created zeros 896 blocks\n", quiet=False)
    judge.ends(["create", "sized/none/x", "--size", "8M"], 3, errors="ztxg: cannot use sized/none/x\n")
    for more in (["tank", "77", "8M", "--size", "8M"], ["tank", "77", "8M", "--force"], ["--name", "tank"], [], ["--guid", "5"]):
        if judge.run(["create", "sized/fault.pool", *more])[0] != 2:
            judge.differ("create", more, "is no fault of the command line")
    for words in (["put", path, "1"], ["rm", path, "1"], ["serve", path]):
        judge.run(words)
        made = pathlib.Path(path).read_bytes()
        moments = [number_at(made, slot_places(SIZE, group)[0] + 32) for group in range(128)]
        if abs(max(moments) - time.time()) > 600:
            judge.differ(words, "has the moment", max(moments))
    judge.put(["put", path, "1", "--moment", str(2**40)], "abcd")


def keys_of(text):
    """The keys of objects of JSON in a text."""
    return set(re.findall(r'"(\w+)":', text))


def json_rows(judge, sync, log, flawed):
    """Reports as JSON, of pools that are new, synced, logged, damaged or missing. They have the keys of the page."""
    keys = set()

    def shown(judge, words, status, expected):
        """One line of JSON with these keys in this order, and nothing else."""
        text = json.dumps(expected, separators=(",", ":"))
        keys.update(keys_of(text))
        judge.ends([*words, "--json"], status, text + "\n")

    name = judge.make("json.pool", sync)
    objects = [{"object": 1, "length": 4, "blocks": 2}]
    numbers = {"name": "tank", "guid": "77", "group": 9, "import": 1, "blocks": 896, "used": 4, "records": 0}
    shown(judge, ["show", name], 0, {**numbers, "objects": objects})
    shown(judge, ["ls", name], 0, {"objects": objects})
    shown(judge, ["ls", "-l", name], 0, {"objects": objects})
    shown(judge, ["check", name], 0, {"state": "clean", "group": 9, "records": 0})
    shown(judge, ["check", name, "--all"], 0, {"state": "clean", "group": 9, "records": 0, "labels": []})
    judge.put(["put", name, "7"], "")
    shown(judge, ["ls", name], 0, {"objects": [*objects, {"object": 7, "length": 0, "blocks": 0}]})
    shown(judge, ["check", judge.make("logged.pool", log)], 0, {"state": "clean", "group": 8, "records": 2})
    guid = 2**64 - 1
    judge.ends(["create", name, "a.b-c_d", str(guid), "8M"], 0, "created a.b-c_d 896 blocks\n")
    made = {"name": "a.b-c_d", "guid": str(guid), "group": 4, "import": 0, "blocks": 896, "used": 0, "records": 0}
    shown(judge, ["show", name], 0, {**made, "objects": []})
    shown(judge, ["ls", name], 0, {"objects": []})
    config = {"name": "a.b-c_d", "guid": str(guid), "group": 4, "size": SIZE}
    labels = [{"label": n, "config": config, "uberblocks": 1, "highest": 4} for n in range(4)]
    active = {"group": 4, "label": 0}
    shown(judge, ["labels", name], 0, {"labels": labels, "active": active})
    os.truncate(name, 6 * MIB)
    flawed(name, CONFIG_AT)
    none = [{"config": None, "reason": reason} for reason in ("check", "size", "zeros", "zeros")]
    none[1]["size"] = SIZE
    rings = [{"uberblocks": 1, "highest": 4}] * 2 + [{"uberblocks": 0}] * 2
    labels = [{"label": n, **none[n], **rings[n]} for n in range(4)]
    shown(judge, ["labels", name], 0, {"labels": labels, "active": active})
    pathlib.Path(name).write_bytes(bytes(6 * MIB))
    labels = [{"label": n, "config": None, "reason": "zeros", "uberblocks": 0} for n in range(4)]
    shown(judge, ["labels", name], 0, {"labels": labels, "active": None})
    shown(judge, ["check", name], 1, {"state": "no pool"})
    shown(judge, ["check", name, "--all"], 1, {"state": "no pool", "labels": []})
    name = judge.make("json.pool", sync.replace("w:1:0:4", "w:1:0:4 w:1:8064:4").replace("abcd", "abcd wxyz"))
    damages = [{"kind": 5, "address": AREA + BLOCK * at} for at in (1, 2)]
    flawed(flawed(name, AREA + BLOCK + 64), AREA + 2 * BLOCK + 64)
    flawed(name, LABEL + CONFIG_AT)
    lost = [{"label": 1, "reason": "check"}]
    shown(judge, ["check", name], 1, {"state": "damaged", "damages": damages[:1]})
    shown(judge, ["check", name, "--all"], 1, {"state": "damaged", "damages": damages, "labels": lost})
    lists = [["ls", name, form, "--whole"] for form in ("--json", "-l")]
    for words in (["show", name, "--json"], *lists, ["df", name]):
        judge.ends(words, 1, errors=f"ztxg: refused 7 Damaged 5 {AREA + BLOCK}\n")
    for words in (["labels", "--json"], ["check", "--json"], ["check", "--all", "--json"], ["df"], ["ls", "-l"]):
        judge.ends([*words, "none.pool"], 3, errors="ztxg: cannot use none.pool\n")
        with open("/dev/full", "wb") as full:
            if judge.run([*words, judge.make("json.pool", sync)], out=full)[0] != 3:
                judge.differ(words, "into a full output ends well")
        os.truncate("json.pool", 6 * MIB - 1)
        judge.ends([*words, "json.pool"], 1, errors="ztxg: refused 8 BadGeometry\n")
    if listed := keys ^ keys_of(TEXT.partition("### JSON\n")[2].partition("\n## ")[0]):
        judge.differ("the page and these rows have other keys of JSON:", sorted(listed))
