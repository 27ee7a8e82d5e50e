"""Compares the refusals that the clients know with those of `base`: their numbers, names and texts.

A client has the words for a refusal itself, so they can drift from those that the program prints. What is read is:

- of `base`: the texts above the variants of `PoolError`, and its `number`;
- of docs/FORMATS.md: the numbers and names of "Refusals";
- of C: the enumerators of topzerad.h, and the strings `texts` of topzerad.c, the first of which is for 0. The text with
  two numbers may be a format besides;
- of Rust: the two matches of error.rs, from numbers to names and from names to texts;
- of Python: a tuple or a dict of as many strings as there are refusals. Those without a space are names.
"""

import ast
import re

from tools import TOP

BASE, FORMATS = "crates/base/src/error.rt", "docs/FORMATS.md"
C_HEADER, C_SOURCE, RUST = "clients/c/topzerad.h", "clients/c/topzerad.c", "clients/rust/src/error.rs"
PYTHON = "clients/python"

STRING = r'"((?:[^"\\]|\\.)*)"'
BASE_TEXT = re.compile(rf"#\[error\({STRING}\)\]\s*(\w+)")
BASE_NUMBER = re.compile(r"PoolError::(\w+)(?: \{ \.\. \})? => (\d+),")
SECTION = re.compile(r"^## \d+\. Refusals\n(.*?)^## ", re.M | re.S)
ROW = re.compile(r"^\| (\d+) \| (\w+)(?: \([^)]*\))? \|", re.M)
C_NAME = re.compile(r"\bTOPZERAD_(\w+) = (\d+),")
C_TEXTS = re.compile(r"\btexts\[\] = \{(.*?)\};", re.S)
C_FORMAT = re.compile(r'"([^"%]*)%" PRIu64 "([^"%]*)%" PRIu64 "([^"%]*)"')
RUST_NUMBER = re.compile(r"(\d+) => Refusal::(\w+)")
RUST_TEXT = re.compile(rf"Refusal::(\w+)(?: \{{[^}}]*\}})? => (?:\{{\s*return write!\(f, )?{STRING}")


def unescaped(literal):
    """What a string is that stands so between its quotes."""
    return re.sub(r"\\(.)", r"\1", literal)


def base_refusals(text):
    """The names and the texts by their numbers."""
    numbers = {name: int(number) for name, number in BASE_NUMBER.findall(text)}
    texts = {numbers.get(name): unescaped(literal) for literal, name in BASE_TEXT.findall(text)}
    return {number: name for name, number in numbers.items()}, texts


def document_names(text):
    """The names by their numbers."""
    section = SECTION.search(text)
    return {int(number): name for number, name in ROW.findall(section[1] if section else "")}


def c_names(text, last):
    """The names by their numbers up to the last refusal: others are those of the client."""
    numbers = ((int(number), name) for name, number in C_NAME.findall(text))
    return {number: name.title().replace("_", "") for number, name in numbers if 1 <= number <= last}


def c_texts(text):
    """The texts by their numbers. A format is that of the text with two numbers."""
    table = C_TEXTS.search(text)
    texts = dict(enumerate(unescaped(literal) for literal in re.findall(STRING, table[1]))) if table else {}
    texts.pop(0, None)
    formats = ["{kind}".join(parts[:2]) + "{address}" + parts[2] for parts in C_FORMAT.findall(text)]
    for number, said in texts.items():
        if "{kind}" in said and formats and said not in formats:
            texts[number] = formats[0]
    return texts


def rust_refusals(text):
    """The names and the texts by their numbers."""
    names = {int(number): name for number, name in RUST_NUMBER.findall(text)}
    texts = {name: unescaped(literal) for name, literal in RUST_TEXT.findall(text)}
    return names, {number: texts[name] for number, name in names.items() if name in texts}


def strings_of(node):
    """The strings of a tuple or of a dict by their numbers, or None for anything else."""
    if isinstance(node, ast.Dict):
        keys, values = [key.value if isinstance(key, ast.Constant) else None for key in node.keys], node.values
    elif isinstance(node, ast.Tuple):
        keys, values = list(range(1, len(node.elts) + 1)), node.elts
    else:
        return None
    strings = [value.value if isinstance(value, ast.Constant) else None for value in values]
    if not all(isinstance(key, int) for key in keys) or not all(isinstance(string, str) for string in strings):
        return None
    return dict(zip(keys, strings))


def python_refusals(text, count):
    """The names and the texts by their numbers, of a source that has them."""
    names, texts = {}, {}
    for node in ast.walk(ast.parse(text)):
        strings = strings_of(node)
        if strings and len(strings) == count:
            (texts if any(" " in string for string in strings.values()) else names).update(strings)
    return names, texts


def differences(place, what, found, wanted):
    """How what a place says differs from what `base` says."""
    if not found:
        yield f"{place} has no {what}s of refusals that this tool finds"
        return
    for number in sorted(wanted.keys() | found.keys()):
        said, right = found.get(number), wanted.get(number)
        if said != right:
            yield f"{place}: the {what} of {number} is {said!r}, and in base {right!r}"


def faults(sources):
    """What differs in sources, by their paths."""
    names, texts = base_refusals(sources[BASE])
    if not names or names.keys() != texts.keys():
        yield f"{BASE} has no number and text for each refusal that this tool finds"
        return
    rust_names, rust_texts = rust_refusals(sources[RUST])
    yield from differences(FORMATS, "name", document_names(sources[FORMATS]), names)
    yield from differences(C_HEADER, "name", c_names(sources[C_HEADER], max(names)), names)
    yield from differences(C_SOURCE, "text", c_texts(sources[C_SOURCE]), texts)
    yield from differences(RUST, "name", rust_names, names)
    yield from differences(RUST, "text", rust_texts, texts)
    python_names, python_texts, place = {}, {}, PYTHON
    for path in sources:
        if path.startswith(PYTHON):
            found = python_refusals(sources[path], len(names))
            if any(found):
                place = path
            python_names.update(found[0])
            python_texts.update(found[1])
    yield from differences(place, "name", python_names, names)
    yield from differences(place, "text", python_texts, texts)


def main():
    paths = [TOP / path for path in (BASE, FORMATS, C_HEADER, C_SOURCE, RUST)]
    paths += (path for path in sorted((TOP / PYTHON).rglob("*.py")) if not path.name.startswith("test_"))
    sources = {path.relative_to(TOP).as_posix(): path.read_text() for path in paths}
    found = [f"client_texts: {fault}" for fault in faults(sources)]
    print("\n".join(found) or "the refusals of docs/FORMATS.md and of three clients are those of base")
    return int(bool(found))
