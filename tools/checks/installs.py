"""Installs a built program, the library for C and the Python package into folders of its own, and uses them there.

- `make install` below another PREFIX and DESTDIR puts the files there that README.md names, and `make uninstall` leaves
  none. The installed program says its version, the man pages are shown, and the completion is one of `ztxg`.
- The example of `topzerad.3` is compiled as `pkg-config` says, and also with the static library. Both run twice by the
  installed program. The shared library has its soname, and the calls of `topzerad.h` and no others.
- The installed hub serves a pool to the installed `ztxg-ctl`. Its unit names programs that are there.
- The plugin of nbdkit is installed if the compiler finds its header, and else skipped by name. So is the extension of
  SQLite.
- `make dist` refuses a program that says `unproved`, and makes no archive. Another program is in the archive of
  `make dist` and in the package of `make deb`. The archive's sums are right, and its library is found wherever it is
  unpacked.
- `pip install` takes the Python package without a network, into a new virtual environment. The first program of its
  page runs there, and finds `ztxg` in PATH.

What needs a command that isn't installed is skipped by name. Each difference is printed, and then the status is 1.
"""

import os
import pathlib
import re
import shutil
import subprocess
import sys
import tarfile
import tempfile

from tools import TOP
from tools.harness.judge import Judge
from tools.harness.program import add_program
from tools.repository import c_manual

SECONDS = 120
PREFIX = "opt/pool"
# What is installed below PREFIX, besides the shared library and the plugin.
FILES = """bin/ztxg include/topzerad.h lib64/libtopzerad.a lib64/libtopzerad.so lib64/pkgconfig/topzerad.pc
share/man/man1/ztxg.1 share/man/man3/topzerad.3 bin/ztxg-hub bin/ztxg-ctl share/man/man1/ztxg-hub.1
share/man/man1/ztxg-ctl.1 share/topzerad/ztxg-hub@.service share/topzerad/ztxg-hub@.socket
share/topzerad/ztxg-hub-metrics@.socket""".split()
COMPLETION = "share/bash-completion/completions/ztxg"
PLUGIN = "lib64/nbdkit/plugins/nbdkit-topzerad-plugin.so"
EXTENSION = "lib64/topzerad.so"
# Another make that runs this check hands its own words on by these.
OF_MAKE = ("MAKEFLAGS", "MFLAGS", "MAKELEVEL", "DESTDIR", "PREFIX", "BUILD", "ZTXG", "PROVED")
EXAMPLE = re.compile(r"^\.SH EXAMPLE\n\.nf\n(.*?)^\.fi", re.M | re.S)
PYTHON = re.compile(r"^```python\n(.*?)^```", re.M | re.S)
# What is installed if the compiler finds a header: the header, and what needs it.
IF_FOUND = [
    ("nbdkit-plugin.h", PLUGIN, "the plugin of nbdkit"),
    ("sqlite3ext.h", EXTENSION, "the extension of SQLite"),
]


class Installs(Judge):
    """What is installed in a folder, and runs of it. The first difference of a part ends it."""

    def __init__(self, ztxg, folder):
        super().__init__("installs")
        self.ztxg, self.folder = ztxg, folder
        self.root = folder / "root"
        self.prefix = self.root / PREFIX
        self.version = re.search(r'TOPZERAD_VERSION "(.*)"', (TOP / c_manual.HEADER).read_text())[1]
        kept = {name: value for name, value in os.environ.items() if name not in OF_MAKE}
        self.environment = {
            **kept,
            "PATH": f"{self.prefix / 'bin'}:{kept['PATH']}",
            "LD_LIBRARY_PATH": str(self.prefix / "lib64"),
            "PKG_CONFIG_PATH": str(self.prefix / "lib64/pkgconfig"),
            "PKG_CONFIG_SYSROOT_DIR": str(self.root),
            "PYTHONDONTWRITEBYTECODE": "1",
            "PIP_NO_INDEX": "1",
            "LC_ALL": "C.UTF-8",
        }

    def run(self, *words, folder=None, status=0, **more):
        """What a command prints, or None if its status is another one, which is told."""
        words, environment = [str(word) for word in words], {**self.environment, **more}
        how = {"stdin": subprocess.DEVNULL, "stdout": subprocess.PIPE, "stderr": subprocess.STDOUT, "text": True}
        ran = subprocess.run(words, cwd=folder or self.folder, env=environment, timeout=SECONDS, **how)
        if ran.returncode != status:
            self.differ(words, "ends with", ran.returncode, "\n" + ran.stdout)
            return None
        return ran.stdout

    def prints(self, wanted, *words, **how):
        """A command has to print this."""
        found = self.run(*words, **how)
        if found is not None and found != wanted:
            self.differ([str(word) for word in words], "prints", repr(found), "and not", repr(wanted))

    def make(self, goal, *words, status=0):
        own = [f"BUILD={self.folder / 'build'}", f"ZTXG={self.ztxg}", *words]
        return self.run("make", "-s", "-C", TOP, *own, goal, status=status)

    def lies(self, folder):
        """The names of the files and links in a folder."""
        return {str(path.relative_to(folder)) for path in folder.rglob("*") if path.is_symlink() or path.is_file()}

    def skip(self, *what):
        print("skipped", *what, flush=True)

    def place(self):
        """The words of make for the place of an install."""
        return [f"DESTDIR={self.root}", f"PREFIX=/{PREFIX}", f"LIBDIR=/{PREFIX}/lib64"]

    def install(self):
        if self.make("install", *self.place()) is None:
            return False
        shared = f"lib64/libtopzerad.so.{self.version}"
        wanted = {*FILES, COMPLETION, shared, shared.rpartition(".")[0]}
        for header, path, what in IF_FOUND:
            words = ["cc", "-include", header, "-E", "-x", "c", "/dev/null"]
            if subprocess.run(words, env=self.environment, capture_output=True).returncode:
                self.skip(f"{what}: {header} isn't installed")
            else:
                wanted.add(path)
        found = self.lies(self.root)
        if found != {f"{PREFIX}/{name}" for name in wanted}:
            self.differ("make install leaves", sorted(found))
        said = self.run(self.ztxg, "--version")
        self.prints(said, "ztxg", "--version")
        completes = f". {self.prefix / COMPLETION}; complete -p ztxg"
        self.prints("complete -o filenames -F _ztxg ztxg\n", "bash", "-c", completes)
        return True

    def uninstall(self):
        other = self.prefix / "lib64/other"
        other.touch()
        self.make("uninstall", *self.place())
        if self.lies(self.root) != {f"{PREFIX}/lib64/other"}:
            self.differ("make uninstall leaves", sorted(self.lies(self.root)), "of which `other` isn't its own")

    def pages(self):
        if not shutil.which("man"):
            return self.skip("the man pages: man not installed")
        shown = [("1", "ztxg", "COMMANDS"), ("1", "ztxg-hub", "SIGNALS"), ("1", "ztxg-ctl", "COMMANDS")]
        for section, name, word in [*shown, ("3", "topzerad", "topzerad_transact_durably")]:
            said = self.run("man", "--warnings", "-M", self.prefix / "share/man", section, name)
            if said is not None and (word not in said or "warning" in said):
                self.differ("man", section, name, "prints", said)

    def compiled(self, name, *libraries):
        """The example of the man page, compiled with these words for the compiler, and a new folder to run it in. The
        program is `true` if it isn't compiled, which is told."""
        page = (self.prefix / "share/man/man3/topzerad.3").read_text()
        source = self.folder / "example.c"
        source.write_text(EXAMPLE.search(page)[1].replace(r"\e", "\\"))
        warnings = ["-std=c11", "-Wall", "-Wextra", "-Wpedantic", "-Werror"]
        made = self.run("cc", *warnings, "-o", self.folder / name, source, *libraries) is not None
        room = self.folder / f"of {name}"
        room.mkdir()
        return self.folder / name if made else "true", room

    def library(self):
        words = (self.run("pkg-config", "--cflags", "--libs", "topzerad") or "").split()
        self.prints(f"{self.version}\n", "pkg-config", "--modversion", "topzerad")
        static = [f"-I{self.prefix / 'include'}", self.prefix / "lib64/libtopzerad.a", "-pthread"]
        for name, libraries in [("shared", words), ("static", static)]:
            program, room = self.compiled(name, *libraries)
            for _ in range(2):
                self.prints("hello\n", program, folder=room, **({"LD_LIBRARY_PATH": ""} if name == "static" else {}))
            self.prints("1 5\n", "ztxg", "ls", "tank.pool", folder=room)
        shared = self.prefix / "lib64/libtopzerad.so"
        calls = sorted(c_manual.prototypes(c_manual.COMMENT.sub("", (TOP / c_manual.HEADER).read_text())))
        shown = self.run("nm", "-D", "--defined-only", "--format=posix", shared) or ""
        if sorted(line.split()[0] for line in shown.splitlines()) != calls:
            self.differ("the shared library has other calls than topzerad.h:", shown)
        soname = f"libtopzerad.so.{self.version.rpartition('.')[0]}"
        if f"[{soname}]" not in (self.run("readelf", "-d", shared) or ""):
            self.differ("the shared library doesn't name itself", soname)

    def hub(self):
        room = self.folder / "of hub"
        room.mkdir()
        self.run("ztxg", "create", "tank.pool", "--size", "8M", folder=room)
        served = "ztxg-hub tank.pool --socket s & hub=$!; until [ -S s ]; do sleep 0.1; done"
        ended = "echo hi | ztxg-ctl s put 1; ztxg-ctl s ls; kill $hub; wait $hub; echo $?; ztxg ls tank.pool"
        self.prints("put 3 bytes in 1 transactions\n1 3\n0\n1 3\n", "sh", "-c", f"{served}; {ended}", folder=room)
        unit = (self.prefix / "share/topzerad/ztxg-hub@.service").read_text()
        programs = set(re.findall(r"(/\S*/bin/\S+)", unit))
        if programs != {f"/{PREFIX}/bin/{name}" for name in ("ztxg", "ztxg-hub")}:
            self.differ("the unit names", sorted(programs))

    def dist(self):
        build, name = self.folder / "build", f"topzerad-{self.version}-x86_64-linux"
        if "unproved" in (self.run(self.ztxg, "--version") or ""):
            said = self.make("dist", status=2)
            if said is not None and ("make PROVED=1" not in said or (build / f"{name}.tar.gz").exists()):
                self.differ("make dist of an unproved program prints", said)
            return
        if self.make("dist") is None:
            return
        with tarfile.open(build / f"{name}.tar.gz") as archive:
            archive.extractall(self.folder / "unpacked")
        top = self.folder / "unpacked" / name
        self.run("sha256sum", "--quiet", "-c", "SHA256SUMS", folder=top)
        listed = {line.split(None, 1)[1] for line in (top / "SHA256SUMS").read_text().splitlines()}
        files = {path for path in self.lies(top) if not (top / path).is_symlink()} - {"SHA256SUMS"}
        if files != listed:
            self.differ("SHA256SUMS has not the files of the archive:", sorted(files ^ listed))
        self.prints(self.run("rt", "version"), "tail", "-n", "1", "VERSION", folder=top)
        self.prints(self.run(self.ztxg, "--version"), top / "bin/ztxg", "--version")
        own = {"PKG_CONFIG_PATH": str(top / "lib/pkgconfig"), "PKG_CONFIG_SYSROOT_DIR": ""}
        words = (self.run("pkg-config", "--cflags", "--libs", "topzerad", **own) or "").split()
        program, room = self.compiled("unpacked_example", *words)
        self.prints("hello\n", program, folder=room, LD_LIBRARY_PATH=str(top / "lib"))
        if not shutil.which("dpkg-deb"):
            return self.skip("make deb: dpkg-deb not installed")
        if self.make("deb") is not None:
            package, own = build / f"topzerad_{self.version}_amd64.deb", self.folder / "package"
            self.prints(f"{self.version}\n", "dpkg-deb", "-f", package, "Version")
            self.run("dpkg-deb", "-x", package, own)
            self.prints(self.run(self.ztxg, "--version"), own / "usr/bin/ztxg", "--version")

    def python(self):
        made = [sys.executable, "-m", "venv", self.folder / "venv"]
        if subprocess.run(made, env=self.environment, capture_output=True).returncode:
            return self.skip("the Python package: this Python makes no virtual environment with pip")
        python = self.folder / "venv/bin/python"
        if self.run(python, "-m", "pip", "install", "--quiet", TOP / "clients/python") is None:
            return
        typed = "import pathlib, topzerad; print(pathlib.Path(topzerad.__file__).with_name('py.typed').is_file())"
        self.prints("True\n", python, "-c", typed)
        named = "import importlib.metadata as metadata; print(metadata.version('topzerad'))"
        self.prints(f"{self.version}\n", python, "-c", named)
        room, program = self.folder / "of python", PYTHON.search((TOP / "clients/python/README.md").read_text())[1]
        room.mkdir()
        self.prints("b'hello'\n", python, "-c", program, folder=room)
        self.prints("1 5\n", "ztxg", "ls", "tank.pool", folder=room)


def add_arguments(parser):
    add_program(parser)


def main(ztxg):
    with tempfile.TemporaryDirectory() as folder:
        installs = Installs(ztxg, pathlib.Path(folder))
        if installs.install():
            made = (installs.library, installs.hub, installs.dist, installs.python)
            for part in (installs.pages, *made, installs.uninstall):
                part()
    print(f"installs: {installs.differences} differences")
    return int(bool(installs.differences))
