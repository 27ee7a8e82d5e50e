"""Compares the version and the kit that the program, the clients and the pages name with the kit that is installed.

`crates/command_line/src/help.rt` has the version and the kit in one constant, since a build can't ask for them. Fails
if README.md names another version or kit, or a client or a man page another version. If `rt version` names another kit,
it says so: what passes with that kit, too, is no less tested.
"""

import re
import subprocess

from tools import TOP, Failed

# What names the version in a client and in a man page.
NAMED = {
    "clients/c/topzerad.h": '#define TOPZERAD_VERSION "{}"',
    "clients/python/pyproject.toml": '\nversion = "{}"\n',
    "clients/rust/Cargo.toml": '\nversion = "{}"\n',
    "docs/topzerad.3": '"topzerad {}"',
    "docs/ztxg.1": '"ztxg {}"',
    "docs/ztxg-hub.1": '"ztxg {}"',
    "docs/ztxg-ctl.1": '"ztxg {}"',
}


def installed():
    """The kit that is installed."""
    try:
        return subprocess.run(["rt", "version"], capture_output=True, text=True, check=True).stdout.strip()
    except (OSError, subprocess.CalledProcessError) as error:
        raise Failed(f"`rt version` names no kit: {error}") from error


def main():
    text = (TOP / "crates/command_line/src/help.rt").read_text()
    version, kit = re.search(r'VERSION: &str = "([0-9.]+) \(([^)]*)\)"', text).groups()
    readme = (TOP / "README.md").read_text()
    wrong = [f"README.md doesn't name {word}" for word in (f"version {version}", kit) if word not in readme]
    for name, form in NAMED.items():
        if form.format(version) not in (TOP / name).read_text():
            wrong.append(f"{name} doesn't name version {version}")
    found = installed()
    if found != kit:
        print(f"note: the program names the kit {kit}, and rt version {found}")
    print("\n".join(wrong) or f"version {version}, {kit}")
    return int(bool(wrong))
