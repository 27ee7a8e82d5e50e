"""Looks whether the programs of `tools/programs` name only crates that are there, and whether each can be built.

A crate is one of `crates`, or one of the kit that a crate here or a program of `readme_program` uses. Each program has
to have a line of `crates.txt` in `build_program`, and may use no crate that its line doesn't have.
"""

import re

from tools import TOP
from tools.repository.build_program import PROGRAMS, SOURCES
from tools.repository.readme_program import LINES

# What a source names besides crates.
BUILT_IN = {"std", "core", "crate", "self", "super"}
USE = re.compile(r"^\s*(?:pub )?use (\w+)", re.M)
MODULE = re.compile(r"^\s*(?:pub(?:\(crate\))? )?mod (\w+)", re.M)


def crates_of(line):
    """The crates that a line of crates.txt has after its own."""
    return line.partition("#")[0].partition(":")[2].split()


def known_crates():
    """The crates that are there, and those of the kit that they use."""
    lines = [*(TOP / "crates.txt").read_text().splitlines(), *LINES.values()]
    used = {name for line in lines for name in crates_of(line)}
    return used | {path.name for path in (TOP / "crates").iterdir() if path.is_dir()}


def used_crates(name):
    """The crates that the sources of a program use."""
    texts = [path.read_text() for path in (SOURCES / name / "src").rglob("*.rt.txt")]
    modules = {module for text in texts for module in MODULE.findall(text)}
    return {crate for text in texts for crate in USE.findall(text)} - modules - BUILT_IN


def faults(known):
    """What is wrong with the programs."""
    folders = {path.name for path in SOURCES.iterdir() if path.is_dir()}
    for name in sorted(folders ^ set(PROGRAMS)):
        yield f"{name} has no folder and line both"
    for name in sorted(folders & set(PROGRAMS)):
        line = PROGRAMS[name]
        if line.partition(":")[0].split()[0] != name:
            yield f"{name} has the line of another program: {line}"
        yield from (f"{name} names {crate}, which is not there" for crate in crates_of(line) if crate not in known)
        for crate in sorted(used_crates(name) - set(crates_of(line))):
            yield f"{name} uses {crate}, which its line does not have"


def main():
    found = [f"program_crates: {fault}" for fault in faults(known_crates())]
    print("\n".join(found) or f"{len(PROGRAMS)} programs name crates that are there")
    return int(bool(found))
