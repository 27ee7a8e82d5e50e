"""Finds sentences of the documents that are longer than 30 words, also in tables.

Read are README.md, CHANGES.md, docs/*.md and the READMEs of the folders, without code blocks. Code in back quotes is
one word. A sentence ends at a full stop, a colon, a question mark or an exclamation mark. A cell of a table is a text
of its own, and so is a point of a list.
"""

import re

from tools import TOP

READ = ["*.md", "docs/*.md", "bench/*.md", "tools/*.md", "clients/**/*.md"]
READ += ["crates/*/README.md", "examples/*/README.md"]
MOST = 30
BEGINS = re.compile(r"^(?:[-*#>]+|\d+\.)\s+")
CELL_END = re.compile(r"(?<!\\)\|")
WORD = re.compile(r"[A-Za-z][A-Za-z'-]*")


def without_code(text):
    """The lines that are no code, numbered: those of a block are left out."""
    inside = False
    for number, line in enumerate(text.split("\n"), 1):
        if line.lstrip().startswith("```"):
            inside = not inside
        elif not inside and not (line.startswith(("    ", "\t")) and not BEGINS.match(line.lstrip())):
            yield number, line.strip()


def texts(text):
    """Each text of a document with the number of the line that it begins on."""
    held, at = [], 0
    for number, line in [*without_code(text), (0, "")]:
        if (not line or line.startswith("|") or BEGINS.match(line)) and held:
            yield at, " ".join(held)
            held = []
        if line.startswith("|"):
            yield from ((number, cell.strip()) for cell in CELL_END.split(coded(line)) if cell.strip(" -"))
        elif line:
            at = at if held else number
            held.append(BEGINS.sub("", line))


def coded(text):
    """A text in which each piece of code is one word, and no letter is bold."""
    return re.sub(r"`[^`]*`", "code", text).replace("**", "")


def long_sentences(text):
    """The sentences with too many words: their line, how many words they have, and themselves."""
    for at, one in texts(text):
        for sentence in re.split(r"(?<=[.:?!])\s+", coded(one)):
            count = len(WORD.findall(sentence))
            if count > MOST:
                yield at, count, sentence


def main():
    paths = sorted({path for pattern in READ for path in TOP.glob(pattern) if "out" not in path.parts})
    found = 0
    for path in paths:
        for at, count, sentence in long_sentences(path.read_text()):
            found += 1
            print(f"prose: {path.relative_to(TOP)}:{at}: {count} words: {sentence[:100]}")
    if not found:
        print(f"prose: no sentence of {len(paths)} documents has more than {MOST} words")
    return int(found > 0)
