"""Lists the public functions of the crates with the labels of their clauses.

A line has the crate, the function, and the labels: those of its premises in round brackets, and `-` for a clause
without one. With --check it lists nothing, and fails if a document names, in brackets, a label that no public function
has.

Public are `pub fn`, the functions of a `pub trait`, and those of an `impl` of a trait. Read are README.md, docs/*.md
and crates/*/README.md without code blocks. In brackets (`F`: `a`, `b`) says that F has the clauses a and b, or that
these are functions. (`a`) says that some public function has the clause a, or that the code, the definitions or the
lemmas have the word a. A row of a table whose last column is "labels" says of the functions in its first column what
(`F`: `a`, `b`) says.
"""

import re

from tools import TOP

CRATES = TOP / "crates"
HOME = re.compile(r"^(?:pub )?(?:unsafe )?(impl|trait)\b(.*)")
FUNCTION = re.compile(r"^( {4})?(pub(?:\([^)]*\))? )?(?:const )?(?:unsafe )?fn (\w+)")
CLAUSE = re.compile(r"^\s*(ensures|requires)\s+(?:(\w+)\s+)?\{")
NAME = re.compile(r"`((?:[A-Za-z]\w*::)*(?:[a-z]\w*|\{[\w, ]+\}))`")


def functions():
    """Crate, function as its users call it, labels of its clauses and of its premises."""
    found = []
    for path in sorted(CRATES.glob("*/src/**/*.rt")):
        home, shared, labels, premises = "", False, [], []
        for line in path.read_text(errors="replace").split("\n"):
            if m := HOME.match(line):
                rest = re.sub(r"<[^<>]*>", "", re.sub(r"<[^<>]*>", "", m[2]))
                home = re.sub(r".* for ", "", rest).strip(" &{").split(":")[0].split(" ")[0]
                shared = " for " in rest or line.startswith("pub trait")
            elif line == "}":
                home, shared = "", False
            if m := FUNCTION.match(line):
                labels, premises = [], []
                if m[2] == "pub " or (shared and m[1]):
                    name = f"{home}::{m[3]}" if home and m[1] else m[3]
                    found.append((path.relative_to(CRATES).parts[0], name, labels, premises))
            elif m := CLAUSE.match(line):
                (labels if m[1] == "ensures" else premises).append(m[2] or "-")
    return found


def words():
    """Each name that the code, the definitions or the lemmas have, and those of crates and of their files."""
    found = {path.name for path in [*CRATES.glob("*/*"), *CRATES.iterdir()]}
    for path in [*CRATES.glob("*/*/**/*.rt"), *CRATES.glob("*/*/**/*.antt")]:
        if "out" not in path.parts:
            found.update(re.findall(r"[A-Za-z][\w-]*", path.read_text(errors="replace")))
    return found


def brackets(text):
    """Each text in round brackets, the innermost first, with the number of its line; code in back quotes has none."""
    number, open_ones, code = 1, [], False
    for at, c in enumerate(text):
        number += c == "\n"
        if c == "`":
            code = not code
        elif text[at : at + 2] == "\n\n":
            open_ones, code = [], False
        elif c == "(" and not code:
            open_ones.append((at + 1, number))
        elif c == ")" and not code and open_ones:
            start, line = open_ones.pop()
            yield line, text[start:at]


def rows(text):
    """The rows of the tables of labels, each as the text of a bracket, with the number of its line."""
    inside = False
    for number, line in enumerate(text.split("\n"), 1):
        cells = [cell.strip() for cell in line.strip("|").split("|")]
        inside = line.startswith("|") and (inside or cells[-1] == "labels")
        if inside and cells[-1].startswith("`"):
            yield number, f"{cells[0]}: {cells[-1]}".replace(";", ",")


def names(text):
    """The names in back quotes, `A::{b, c}` as `A::b` and `A::c`."""
    found = []
    for name in NAME.findall(text):
        m = re.match(r"(.*)\{(.*)\}$", name)
        found += [m[1] + part.strip() for part in m[2].split(",")] if m else [name]
    return found


def documents():
    """README.md, the documents and the crates' READMEs."""
    return [TOP / "README.md", *sorted((TOP / "docs").glob("*.md")), *sorted(CRATES.glob("*/README.md"))]


class Labels:
    """What the names of a document may be."""

    def __init__(self):
        self.labels, self.owners, self.known = set(), {}, words()
        for _, name, own, premises in functions():
            self.labels.update(own, premises)
            for key in {name, name.split("::")[-1]}:
                self.owners.setdefault(key, set()).update(own, premises)

    def wrong_names(self, part):
        """The names of a part of a bracket that are none."""
        head, _, tail = part.partition("`: ") if "`: " in part else ("", "", part)
        heads = names(head + "`")
        having = [self.owners[name] for name in heads if name in self.owners]
        for name in names(tail):
            is_label = any(name in own for own in having) if having else name in self.labels | self.known
            is_odd = any("::" in one and one not in self.owners for one in [name, *heads])
            if is_odd or name not in self.owners and not is_label:
                yield name


def wrong_labels():
    """Prints the names in brackets that are none: how many there are."""
    labels, wrong = Labels(), 0
    for path in documents():
        text = re.sub(r"(?ms)^```.*?^```", lambda m: "\n" * m[0].count("\n"), path.read_text())
        for line, inside in [*brackets(text), *rows(text)]:
            for part in inside.split(";"):
                for name in labels.wrong_names(part):
                    wrong += 1
                    print(f"{path.relative_to(TOP)}:{line}: `{name}` of ({part.strip()})")
    print(f"clauses: {wrong} wrong names" if wrong else "clauses: each label in brackets is one of a public function")
    return wrong


def print_functions(wanted):
    for crate, name, own, premises in functions():
        row = f"{crate} {name}: " + " ".join([*own, *(f"({p})" for p in premises)])
        if not wanted or any(word in re.split(r"[\s:()]+", row) for word in wanted):
            print(row)


def add_arguments(parser):
    parser.add_argument("words", metavar="WORD", nargs="*", help="only lines that have one of these words")
    parser.add_argument("--check", action="store_true", help="look for wrong labels in the documents")


def main(words, check):
    if check:
        return int(wrong_labels() > 0)
    print_functions(words)
    return 0
