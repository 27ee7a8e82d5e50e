"""Runs the whole program of README.md, letter by letter, and that of `examples`, each in a copy of the repository.

Fails unless each prints what it has to: README's program `hello`, an example its `stdout`.
"""

import pathlib
import re
import subprocess
import tempfile

from tools import TOP, Failed
from tools.repository.build_program import copied

EXAMPLES = TOP / "examples"
# The lines of the programs in crates.txt. README's program stands in README.md.
README = "hello"
LINES = {
    README: "hello: anyhow topzerad",
    "served_pool": "served_pool may_wait=5: anyhow topzerad",
}
# `try` also runs a program on an interpreter, which has no files and no threads. So this gets few steps.
WORDS = {"try": ["rt", "try", "--steps", "1000", "--seconds", "300"], "run": ["rt", "run"]}


def source_of(name):
    """The source of a program, and what it has to print."""
    if name == README:
        return re.search(r"```rust\n(.*?)```", (TOP / "README.md").read_text(), re.S)[1], "hello\n"
    return tuple((EXAMPLES / name / file).read_text() for file in ("main.rt.txt", "stdout"))


def ran(command, name):
    """What a program prints, and what `rt` says, in a copy of the repository."""
    code, _ = source_of(name)
    with tempfile.TemporaryDirectory() as room:
        folder = pathlib.Path(copied(room, LINES[name], "out"), name)
        (folder / "src").mkdir(parents=True)
        (folder / "src/main.rt").write_text(code)
        process = subprocess.run(WORDS[command], cwd=folder, stdin=subprocess.DEVNULL, capture_output=True, text=True)
    return process.stdout, process.stderr


def add_arguments(parser):
    told = "try, which proves nothing and takes a minute or two for each (not given), or run, which proves all below"
    parser.add_argument("command", metavar="COMMAND", nargs="?", default="try", choices=WORDS, help=told)
    parser.add_argument("names", metavar="NAME", nargs="*", help=f"{', '.join(LINES)}; all if not given")


def main(command, names):
    if unknown := set(names) - set(LINES):
        raise Failed(f"there is no program {', '.join(sorted(unknown))}", status=2)
    wrong = []
    for name in names or LINES:
        out, errors = ran(command, name)
        print(f"{name}:\n{out}{errors}", flush=True)
        if out != source_of(name)[1]:
            wrong.append(name)
    if wrong:
        raise Failed(f"{', '.join(wrong)}: other output than it has to print")
