"""Compares `docs/topzerad.3`, the man page of the library for C, with `topzerad.h`.

The synopsis has the prototype of each call, word for word, and no other. Each call has an entry below it, and so has
each refusal, with its number. The page names each limit with its value, and each field of a structure that is the
caller's to read or write.
"""

import re

from tools import TOP

HEADER, PAGE = "clients/c/topzerad.h", "docs/topzerad.3"
COMMENT = re.compile(r"/\*.*?\*/", re.S)
CALL = re.compile(r"^(?:const )?\w+ \*?(topzerad_\w+)\([^;{]*\);", re.M)
REFUSAL = re.compile(r"\b(TOPZERAD_\w+) = (\d+)")
LIMIT = re.compile(r"^#define (TOPZERAD_\w+) (\d+)u", re.M)
STRUCTURE = re.compile(r"typedef struct \{(.*?)\} (\w+);", re.S)
FIELD = re.compile(r"\b(\w+)(?=[,;])")
# The fields of these are the library's.
CLOSED = ["topzerad_tx"]

SECTION = re.compile(r"^\.SH ", re.M)
MACRO = re.compile(r"^\.(B|I|BI|BR|IB|IR|RB|RI) (.*)")
WORD = re.compile(r'"((?:[^"]|"")*)"|(\S+)')
ESCAPES = [(r"\\f[BIRP]|\\&", ""), (r"\\-", "-"), (r"\\\([ac]q", "'"), (r"\\\([lr]q", '"'), (r"\\e", r"\\")]


def plain(line):
    """What a line of a page shows: the words of a macro of fonts, without escapes."""
    macro = MACRO.match(line)
    if macro:
        words = [quoted.replace('""', '"') or word for quoted, word in WORD.findall(macro[2])]
        line = (" " if len(macro[1]) == 1 else "").join(words)
    for escape, shown in ESCAPES:
        line = re.sub(escape, shown, line)
    return line


def sections(page):
    """The lines of each section of a page, by its name."""
    parts = [part.splitlines() for part in SECTION.split(page)[1:]]
    return {lines[0].strip('"'): [plain(line) for line in lines[1:]] for lines in parts if lines}


def entries(lines):
    """What the heads of the entries show: the lines after `.TP` and `.TQ`."""
    return "\n".join(after for before, after in zip(lines, lines[1:]) if before in (".TP", ".TQ"))


def prototypes(text):
    """The prototypes of calls by their names, with single spaces."""
    return {found[1]: re.sub(r"\s+", " ", found[0]) for found in CALL.finditer(text)}


def faults(header, page):
    """How a page differs from a header."""
    header, found = COMMENT.sub("", header), sections(page)
    wanted, shown = prototypes(header), prototypes("\n".join(found.get("SYNOPSIS", [])))
    for name in sorted(wanted.keys() | shown.keys()):
        if wanted.get(name) != shown.get(name):
            yield f"the synopsis has `{shown.get(name)}`, and the header `{wanted.get(name)}`"
    lines = [line for part in found.values() for line in part]
    heads, text = entries(lines), "\n".join(lines)
    for word in [*wanted, *(f"{number} {name}" for name, number in REFUSAL.findall(header) if number != "0")]:
        if not re.search(rf"\b{word}\b", heads):
            yield f"{word} has no entry"
    words = [f"{name} {value}" for name, value in LIMIT.findall(header)]
    for fields, name in STRUCTURE.findall(header):
        words += [] if name in CLOSED else [name, *FIELD.findall(fields)]
    yield from (f"it doesn't name {word}" for word in words if not re.search(rf"\b{word}\b", text))


def main():
    found = [f"{PAGE}: {fault}" for fault in faults((TOP / HEADER).read_text(), (TOP / PAGE).read_text())]
    print("\n".join(found) or f"{PAGE} has the calls, refusals, limits and fields of {HEADER}")
    return int(bool(found))
