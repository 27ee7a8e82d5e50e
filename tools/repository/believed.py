"""Lists the definitions that the headline of docs/PROVED.md rests on, by their files.

A reader has to read the roots below, the definitions that these name, and those that they name in turn. Those of Rust
types are not listed: the code shows them. docs/DEFINITIONS.md has the table of the roots, and the number of all; with
--check nothing is printed but whether both are as they should be.
"""

import re

from tools import TOP, Failed

# By what they say. A file of `base` is named by its path below `specs`, one of another crate by the crate's name first.
ROOTS = {
    "one history explains the pool whenever its lock is free, and at each moment of a step": [
        ("steps/Explains", "Explains"),
        ("steps/Explains", "WereSafe"),
        ("pool_threads/Laws", "SteppedPoolsAreExplained"),
        ("pool_threads/Laws", "SteppedPoolsAreSafe"),
    ],
    "the premise of these laws": [("pool_threads/Views", "IsFollowed")],
    "what a step answers, and what it makes of the pool": [("steps/Runs", "Step")],
    "what the calls of a device make of its disk": [("disk/Calls", "Writes"), ("disk/Calls", "Flushes")],
    "which steps a call of a handle made, in which turns": [
        ("pool_threads/Answers", "Makes"),
        ("pool_threads/Answers", "MakesAtLast"),
    ],
    "what its answer says of the pool": [
        ("pool_threads/Answers", "Sees"),
        ("pool_threads/Answers", "IsRefusal"),
        ("steps/Seen", "IsGranted"),
        ("steps/Seen", "IsLetGo"),
        ("steps/Seen", "IsAdmitted"),
        ("steps/Seen", "IsThrottledForGood"),
        ("steps/Seen", "IsCommitted"),
        ("steps/Seen", "IsAborted"),
        ("steps/Seen", "IsReadBetween"),
        ("steps/Seen", "IsLengthBetween"),
        ("steps/Seen", "IsNameBetween"),
        ("steps/Seen", "IsDigestBetween"),
        ("steps/Seen", "IsStatusBetween"),
        ("steps/Seen", "IsKnownDurable"),
        ("steps/Seen", "IsPoolSynced"),
    ],
    "all turns with the lock are one line": [
        ("word_lock/Kept", "Kept"),
        ("word_lock/Seats", "HasTaken"),
        ("word_lock/Seats", "HasTurned"),
    ],
}
# A call promises it, and a law asks for it. A reader of what the law concludes doesn't need it.
BETWEEN = {("pool_threads/Views", "IsSafeBetween")}

KEYWORDS = r"(?:abbrev|unfoldable|data|record)"
HEAD = re.compile(rf"^(?: *(?:pub )?{KEYWORDS} (?:pub )?|(?:pub )?)([^\s:({{]+)(?: .*)? : ")
USE = re.compile(r"^use Rattle\.(\w+)\.specs\.(\S+?)(?:\.\{(.*)\}| as (\w+))$")
FIELD = re.compile(r"(?:^|[{;]) *(?:pub )?[^\s(){};:=]+(?= [:=] )", re.MULTILINE)
WORD = re.compile(r"(?<![^\s(){},;λ→])[^\s(){},;.λ→]+(?:\.[^\s(){},;.λ→]+)?")
TABLE = r"(?<=\n\| {} \|\n\|---\|---\|\n)(?:\|.*\n)*"
COUNT = re.compile(r"`python3 tools believed` prints all (\d+)")


class File:
    """A file of definitions: the lines of each definition, and the names that stand for those of other files."""

    def __init__(self, text):
        self.definitions, self.names, self.files, lines = {}, {}, {}, []
        for line in text.split("\n"):
            if use := USE.match(line):
                path = path_of(use[1], use[2].replace(".", "/"))
                for item in (use[3] or "").split(", "):
                    own = item.split(" as ")
                    self.names[own[-1]] = (path, own[0])
                if use[4]:
                    self.files[use[4]] = path
            elif line.lstrip().startswith("module "):
                lines = []
            elif not line.lstrip().startswith(("--", "use ")):
                if head := HEAD.match(line):
                    lines = self.definitions.setdefault(head[1], [])
                lines.append(line)

    def named_by(self, name, path):
        """Where the definitions are that this one names."""
        for word in WORD.findall(FIELD.sub("", "\n".join(self.definitions[name]))):
            first, _, rest = word.partition(".")
            if first in self.definitions:
                yield path, first
            if first in self.names:
                yield self.names[first]
            if first in self.files:
                yield self.files[first], rest


def path_of(crate, path):
    return path if crate == "base" else f"{crate}/{path}"


def found_at(files, path, name):
    """The place of a definition. A constructor's is that of its type, which its path ends with."""
    if path in files:
        return (path, name) if name in files[path].definitions else None
    above, _, kind = path.rpartition("/")
    return (above, kind) if above in files and kind in files[above].definitions else None


def believed(files, roots, between=frozenset()):
    """The places of all definitions that these name, and of those that they name in turn, but for those between."""
    seen, left = set(), list(roots)
    while left:
        path, name = left.pop()
        if (path, name) not in seen:
            seen.add((path, name))
            if (path, name) not in between:
                left += filter(None, (found_at(files, *place) for place in files[path].named_by(name, path)))
    return seen


def files_of_crates():
    files = {}
    for specs in TOP.glob("crates/*/specs"):
        for path in specs.glob("**/*.antt"):
            if "declared" not in path.parts:
                own = str(path.relative_to(specs).with_suffix(""))
                files[path_of(specs.parent.name, own)] = File(path.read_text())
    return files


def rows(files, roots):
    """A row of the table for each file, those of `base` first, in which its definitions stand in their order."""
    places = believed(files, roots, BETWEEN)
    for path in sorted({path for path, _ in places}, key=lambda path: (is_of_other_crate(path), path)):
        named = [f"`{name}`" for name in files[path].definitions if (path, name) in places]
        yield f"| {path} | {', '.join(named)} |\n"


def is_of_other_crate(path):
    return (TOP / "crates" / path.partition("/")[0] / "specs").is_dir()


def root_rows():
    """A row for what some roots say, with their files."""
    for says, roots in ROOTS.items():
        named = {}
        for path, name in roots:
            named.setdefault(path, []).append(f"`{name}`")
        yield f"| {says} | {'; '.join(f'{path}: ' + ', '.join(names) for path, names in named.items())} |\n"


def add_arguments(parser):
    parser.add_argument("--check", action="store_true", help="compare the table and the number of docs/DEFINITIONS.md")


def faults(document, head, table, count):
    """How the page differs from the table of the roots and from the number of all definitions."""
    held, number = re.search(TABLE.format(re.escape(head)), document), COUNT.search(document)
    if held is None or held[0] != table:
        yield f"the table '{head}' of docs/DEFINITIONS.md is not what `python3 tools believed` prints"
    if number is None or int(number[1]) != count:
        yield f"docs/DEFINITIONS.md says no number of definitions, or not {count}"


def main(check=False):
    files = files_of_crates()
    roots = [root for those in ROOTS.values() for root in those]
    for path, name in [*roots, *BETWEEN]:
        if found_at(files, path, name) is None:
            raise Failed(f"believed: {path} has no definition {name}")
    head, table, every = "what is said | definitions", "".join(root_rows()), "".join(rows(files, roots))
    if not check:
        print(f"{table}\n{every}", end="")
        return 0
    count = every.count("`") // 2
    found = [f"believed: {fault}" for fault in faults((TOP / "docs/DEFINITIONS.md").read_text(), head, table, count)]
    print("\n".join(found) or f"the headline rests on {count} definitions, as docs/DEFINITIONS.md says")
    return int(bool(found))
