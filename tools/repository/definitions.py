"""Prints what each file of definitions says, by its first lines.

A row has the file, by its crate and its path below `specs`, what its first lines say, and its source, if that isn't
this project. In `definitions.txt` stand the sources, and what is printed in place of first lines that say less.
With --names each row also has the names that the file defines. With --check nothing is printed but which file has no
first lines, and which row of `definitions.txt` names no file.
"""

import pathlib
import re

from tools import TOP
from tools.repository import believed

# Made by the compiler, or no file of its own: a list of modules, an answer, a type's invariant.
OTHERS = {"Lib", "Answers", "Invariants", "Proof", "Send", "Sync"}


def files_of(kind):
    """The files of a kind (`specs`, `proofs`) by crate and path, those of `base` first."""
    found = {}
    for folder in sorted((TOP / "crates").glob(f"*/{kind}"), key=lambda path: (path.parent.name != "base", path)):
        for path in sorted(folder.rglob("*.antt")):
            if path.stem not in OTHERS and "declared" not in path.parts and not path.with_suffix("").is_dir():
                found[f"{folder.parent.name}/{path.relative_to(folder).with_suffix('')}"] = path
    return found


def first_lines(text):
    """What the comment says that a file begins with."""
    return " ".join(line[2:].strip() for line in re.match(r"(?:--.*\n)*", text)[0].splitlines())


def held_rows(name):
    """The rows of a file beside this one, by the first of their cells."""
    lines = pathlib.Path(__file__).with_name(name).read_text().splitlines()
    rows = ([cell.strip() for cell in line.split("|")] for line in lines if line and not line.startswith("#"))
    return {row[0]: row[1:] for row in rows}


def faults(files, held, place):
    """Files that don't say what they are, and rows of no file."""
    silent = (path for path in files.values() if not first_lines(path.read_text()))
    yield from (f"{path.relative_to(TOP)} has no first lines" for path in silent)
    yield from (f"tools/repository/{place} has a row of {name}, which is no file" for name in held if name not in files)


def is_wanted(name, words):
    return not words or any(word in name for word in words)


def rows(files, held, words, with_names):
    """The rows of the table for the files whose names have one of the words."""
    for name, path in files.items():
        if is_wanted(name, words):
            text = path.read_text()
            source, says = held.get(name, ["", ""])
            cells = [name, says or first_lines(text), source]
            if with_names:
                cells.append(", ".join(f"`{one}`" for one in believed.File(text).definitions))
            yield f"| {' | '.join(cells)} |"


def checked(files, held, place, tool):
    """The status of a check, which prints what it finds."""
    found = [f"{tool}: {fault}" for fault in faults(files, held, place)]
    print("\n".join(found) or f"{tool}: {len(files)} files say what they are")
    return int(bool(found))


def add_arguments(parser):
    parser.add_argument("words", metavar="WORD", nargs="*", help="only files whose crate and path have one of these")
    parser.add_argument("--names", action="store_true", help="print the names that each file defines, too")
    parser.add_argument("--check", action="store_true", help="look for files that have no first lines")


def main(words=(), names=False, check=False):
    files, held = files_of("specs"), held_rows("definitions.txt")
    if check:
        return checked(files, held, "definitions.txt", "definitions")
    heads = ["file", "what it says", "source", *(["definitions"] if names else [])]
    print(f"| {' | '.join(heads)} |\n{'|---' * len(heads)}|")
    print("\n".join(rows(files, held, words, names)))
    return 0
