"""Looks whether the tools, their files and the parts of documents that documents, sources and scripts name are there.

Looked for are `tools/..`, `python3 tools NAME`, and `docs/NAME.md`, also with the part in quotes that follows: a
heading, or words in bold letters. `tools/README.md` has to have one row for each tool, with the words that the tool
takes.
"""

import functools
import re

from tools import TOP, runner

READ = ["*.md", "docs/*.md", "clients/**/*.md", "crates/*/README.md", "bench/*"]
READ += ["crates/*/src/**/*.rt", "crates/*/specs/**/*.antt"]
READ += [".ci/*", "tools/**/*.md", "tools/**/*.py", "tools/**/*.rt.txt", "tools/**/*.c"]
# A path may stand for many.
PATH = re.compile(r"\btools/([\w./*-]*[\w*])")
TOOL = re.compile(r"python3 tools (\w+)")
PAGE = re.compile(r'`?\bdocs/(\w+\.(?:md|1|bash))\b`?(?:,? \(?"([^"\n]+)")?')
PART = re.compile(r"^#+ (.*)|\*\*(.*?)\*\*", re.M)
ROW = re.compile(r"^\| `([^`]*)` \|", re.M)


def faults_of(text, names):
    """What a text names and isn't there."""
    yield from (f"tools/{path}" for path in PATH.findall(text) if not list((TOP / "tools").glob(path)))
    yield from (f"python3 tools {name}" for name in TOOL.findall(text) if name not in names and name != "NAME")


@functools.lru_cache(maxsize=None)
def parts_of(page):
    """The headings of a page of docs, and what stands there in bold letters, as one text."""
    return "\n".join(heading + bold for heading, bold in PART.findall((TOP / "docs" / page).read_text())).lower()


def page_faults(text):
    """The pages of docs that a text names and that aren't there, and the parts that they don't have."""
    for page, part in PAGE.findall(text):
        if page == "NAME.md":
            continue
        if not (TOP / "docs" / page).is_file():
            yield f"docs/{page}"
        elif part and part.lower() not in parts_of(page):
            yield f'docs/{page}, "{part}"'


class Words:
    """The words that a tool takes, in the place of what reads them."""

    def __init__(self, path):
        self.words, module = [], runner.module_of(path)
        if hasattr(module, "add_arguments"):
            module.add_arguments(self)

    def add_argument(self, name, metavar=None, nargs=None, **_):
        word = f"{metavar} .." if nargs == "*" else metavar or name
        self.words.append(f"[{word}]" if nargs or name.startswith("--") else word)


def row_faults(tools):
    """What is wrong with the rows of tools/README.md."""
    rows = ROW.findall((TOP / "tools/README.md").read_text())
    for name, path in tools.items():
        wanted = " ".join([name, *Words(path).words])
        if rows.count(wanted) != 1:
            yield f"tools/README.md has not one row `{wanted}`"


def main():
    tools, paths = runner.tools(), sorted({path for pattern in READ for path in TOP.glob(pattern) if path.is_file()})
    found = list(row_faults(tools))
    for path in paths:
        text = path.read_text(errors="replace")
        faults = [*faults_of(text, tools), *page_faults(text)]
        found += [f"{path.relative_to(TOP)} names {fault}" for fault in faults]
    all_well = f"{len(paths)} files name tools and pages that are there"
    print("\n".join(f"mentions: {fault}" for fault in found) or all_well)
    return int(bool(found))
