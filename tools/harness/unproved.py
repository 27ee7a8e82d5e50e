"""Builds a program without proofs, in a copy of the repository.

`rt try` makes a module of LLVM's from the sources, in which checks stand for the proofs: an index past the end, a sum
that wraps or a value that its type can't have ends the program. It compiles the module for a run of its own, and keeps
nothing. So it is started here from a folder that has all of the kit but `clang`. In its place stands a script that
keeps the module. The kit's `clang` optimises that with its checks, and the kit's linker makes the program.

Such a program does what the gate's does as long as no check of it fails. It is half as fast. Its version says
`unproved` in the place of the kit's name.

Of a library its tests are built: a program that lists them (`--list`), or runs the one that is named.
"""

import pathlib
import re
import shlex
import shutil
import subprocess
import sys

from tools import TOP, Failed

PROGRAM, UNPROVED = "ztxg", "unproved"
# The front end takes a minute, and so does clang.
SECONDS = 1_200
VERSION = re.compile(r'(VERSION: &str = "[0-9.]+) \([^)]*\)"')
# The module of the program is the one that gets a sanitizer.
SANITIZER = "-fsanitize=address"
KEEPER = """\
#!/bin/sh
case " $* " in *" {sanitizer} "*) ;; *) exec {clang} "$@" ;; esac
printf '%s\\n' "$@" > {kept}/words
for word; do case $word in *.bc) cp "$word" {kept} ;; esac; done
exit 1
"""
# `rt try` also asks a check for its first refusals, which takes as long as the front end, and is no matter here.
ASKED = """\
#!/bin/sh
case " $* " in *" --start "*) exit 0 ;; esac
exec {rattle} "$@"
"""
# They find the rest of the kit beside themselves, so they are copied.
COPIED = ["rt", "rtlib.py"]
LIBRARIES = ["c/libos_c.a", "c/liblibc_c.a"]
TARGET = "x86_64-unknown-linux-gnu"


def kit():
    """The folder of the kit: `rt doc` names a page in it."""
    if not shutil.which("rt"):
        raise Failed("rt, the command of the Rattle toolchain, isn't in PATH", status=2)
    ran = subprocess.run(["rt", "doc"], capture_output=True, text=True, check=True)
    return pathlib.Path(ran.stdout.strip()).parent


def link_all(source, folder, *left_out):
    """Links what a folder has into a new one, but for these names."""
    folder.mkdir()
    for path in source.iterdir():
        if path.name not in left_out:
            (folder / path.name).symlink_to(path)


def keeper(clang, kept):
    """The script that stands in the place of clang, and keeps the module of the program in a folder."""
    names = {"clang": clang, "kept": kept, "sanitizer": SANITIZER}
    return KEEPER.format(**{name: shlex.quote(str(value)) for name, value in names.items()})


def put_script(path, text):
    path.write_text(text)
    path.chmod(0o755)


def kit_that_keeps(folder, kept):
    """A kit in a new folder, whose clang keeps the module of a program in another folder."""
    real = kit()
    link_all(real, folder, "bin", "toolchain")
    link_all(real / "bin", folder / "bin", "rattle", *COPIED)
    for name in COPIED:
        shutil.copy2(real / "bin" / name, folder / "bin")
    link_all(real / "toolchain", folder / "toolchain", "bin")
    link_all(real / "toolchain/bin", folder / "toolchain/bin", "clang")
    put_script(folder / "bin/rattle", ASKED.format(rattle=shlex.quote(str(real / "bin/rattle"))))
    put_script(folder / "toolchain/bin/clang", keeper(real / "toolchain/bin/clang", kept))


def run(words, folder):
    """Runs a command in a folder: what it printed, and its status."""
    how = {"stdin": subprocess.DEVNULL, "stdout": subprocess.PIPE, "stderr": subprocess.STDOUT, "text": True}
    ran = subprocess.run([str(word) for word in words], cwd=folder, timeout=SECONDS, errors="replace", **how)
    return ran.stdout, ran.returncode


def module_of(crate, room):
    """The folder with the module of the program in a crate's folder, and the words that clang would have got."""
    kept, own_kit = room / "kept", room / "kit"
    kept.mkdir()
    kit_that_keeps(own_kit, kept)
    tests = [] if (crate / "src/main.rt").is_file() else ["--test"]
    printed, _ = run([sys.executable, own_kit / "bin/rt", "try", *tests, "--steps", "1", "--seconds", "1"], crate)
    if not (kept / "words").is_file():
        raise Failed(f"{crate.name} isn't built:\n{printed}")
    return kept, (kept / "words").read_text().splitlines()


def optimised(words):
    """The words of clang for a program that is fast, and has no sanitizer."""
    return ["-O2" if word == "-O0" else word for word in words if word != SANITIZER]


def build(crate, path, room):
    """Builds the program in a crate's folder without proofs, or the tests of a library. `room` is a folder for what is
    made on the way."""
    kept, words = module_of(crate, room)
    real = kit()
    made = kept / words[words.index("-o") + 1]
    link = [real / "bin/rattle-link", "--target", TARGET, "--toolchain", real / "toolchain", "-o", path, made]
    for command in [[real / "toolchain/bin/clang", *optimised(words)], [*link, *(real / name for name in LIBRARIES)]]:
        printed, status = run(command, kept)
        if status:
            raise Failed(f"{crate.name} isn't built: {command[0]} ends with {status}\n{printed}")


def say_unproved(top):
    """Has the version of the program in a copy of the repository say that it is unproved."""
    texts = {source: source.read_text() for source in top.glob("crates/*/src/**/*.rt")}
    named = {source: text for source, text in texts.items() if VERSION.search(text)}
    if len(named) != 1:
        raise Failed(f"{len(named)} files of {top} have the version")
    for source, text in named.items():
        source.write_text(VERSION.sub(rf'\1 ({UNPROVED})"', text))
