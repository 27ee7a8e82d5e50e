"""Prints the public items of a crate, each with its signature and the first sentence of its documentation.

Without a word the crate is `topzerad`, the library by one name. What it passes on of other crates is read there. With
words only the items are printed whose names have one of them. Clauses are left out: `clauses` has their labels.
"""

import itertools
import re
import textwrap

from tools import TOP, Failed

CRATES = TOP / "crates"
PASSED_ON = re.compile(r"^pub use ([\w:]+?)(?:::\{([^}]*)\}|::(\w+))?;", re.M | re.S)
ITEM = re.compile(r"^pub (?:const fn|fn|struct|enum|trait|const|type) (\w+)")
METHOD = re.compile(r"^    (pub )?(?:const )?fn (\w+)")
HOME = re.compile(r"^(impl|pub trait)\b(.*)")
# Where a signature ends: at its clauses, its body or its end.
ENDS = re.compile(r"^\s*(?:(?:ensures|requires|ghost|where)\b|//|\{$)")


class Item:
    """A public item: its name, its signature on one line, and the first sentence of its documentation."""

    def __init__(self, name, signature, sentence):
        self.name, self.signature, self.sentence = name, signature, sentence

    def text(self):
        lines = textwrap.wrap(self.sentence, 100, initial_indent="    ", subsequent_indent="    ")
        return "\n".join([self.signature, *lines])


def first_sentence(doc):
    """The first sentence of a documentation, on one line."""
    lines = list(itertools.takewhile(bool, doc))
    paragraph = re.sub(r"\*\*|\]\([^)]*\)|\[(?=`)", "", " ".join(lines)).replace("`]", "`")
    found = re.match(r"(.*?\.)(?:\s|$)", paragraph)
    return found[1] if found else paragraph


def signature(lines):
    """The signature that begins with the first of these lines, on one line, without clauses and body."""
    parts = []
    for line in lines:
        if parts and ENDS.match(line):
            break
        parts.append(line.strip())
        if re.search(r"[;{]\s*$", line):
            break
    text = re.sub(r"\s+", " ", " ".join(parts)).rstrip(" {;")
    text = re.sub(r"<(?:'[a-z]\w*(?:, )?)+", "<", re.sub(r"&'(?!static)\w+ ", "&", text)).replace("<>", "")
    return text.replace("( ", "(").replace(", )", ")").replace(",)", ")")


def items_of(path):
    """The public items of a file, and the public functions of its types: those by the names of their types."""
    doc, home, shared = [], "", False
    lines = path.read_text(errors="replace").split("\n")
    for at, line in enumerate(lines):
        if line.lstrip().startswith("///"):
            doc.append(line.strip()[3:].strip())
            continue
        if m := HOME.match(line):
            rest = re.sub(r"<[^<>]*>", "", re.sub(r"<[^<>]*>", "", m[2]))
            home = re.sub(r".* for ", "", rest).strip(" &{").split(":")[0].split(" ")[0]
            shared = line.startswith("pub trait")
            if " for " in rest:
                home = ""
        elif line == "}":
            home, shared = "", False
        if m := ITEM.match(line):
            yield Item(m[1], signature(lines[at:]), first_sentence(doc))
        elif (m := METHOD.match(line)) and home and (m[1] or shared):
            name = f"{home}::{m[2]}"
            yield Item(name, signature(lines[at:]).replace(f"fn {m[2]}", f"fn {name}", 1), first_sentence(doc))
        if not line.lstrip().startswith("#["):
            doc = []


def passed_on(crate):
    """The names that a crate passes on, by the crates that they come from."""
    root = CRATES / crate / "src/lib.rt"
    if not root.is_file():
        raise Failed(f"there is no library {crate}")
    found = {}
    for m in PASSED_ON.finditer(root.read_text()):
        names = re.findall(r"\w+", m[2]) if m[2] else [m[3]]
        home = m[1].split("::")[0]
        found.setdefault(home if (CRATES / home).is_dir() else crate, []).extend(names)
    return found


def items(crate):
    """The public items of a crate, in the order in which it names them, each type with its functions."""
    for home, names in passed_on(crate).items():
        found = {}
        for path in sorted((CRATES / home / "src").rglob("*.rt")):
            for item in items_of(path):
                found.setdefault(item.name.split("::")[0], []).append(item)
        # A type that the crate passes on itself from a lower one is looked for there.
        for name in names:
            if name in found:
                yield from found[name]
            else:
                lower = [one for one, known in passed_on(home).items() if name in known and one != home]
                yield from (item for one in lower for item in items_named(one, name))


def items_named(crate, name):
    """The items of a crate that have this name, or are functions of the type that has it."""
    for path in sorted((CRATES / crate / "src").rglob("*.rt")):
        yield from (item for item in items_of(path) if item.name.split("::")[0] == name)


def add_arguments(parser):
    parser.add_argument("words", metavar="WORD", nargs="*", help="only items whose names have one of these words")
    parser.add_argument("--crate", default="topzerad", help="another library of the repository")


def main(words, crate):
    for item in items(crate):
        if not words or any(word in item.name for word in words):
            print(item.text())
    return 0
