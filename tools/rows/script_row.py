"""A script with its answers, line by line, and the rows of the files that are written by hand."""

import itertools
import pathlib
import re

from tools.model import layout
from tools.model.layout import MIB

FOLDER = pathlib.Path(__file__).parent
BAD_COMMAND = "bad command"


class Row:
    """A script, line by line, each line with its answer."""

    def __init__(self, title, size=8 * MIB, moment=0):
        self.head = f"== {size} {moment} {title}"
        self.lines = []
        self.is_ended = False

    def say(self, line, answer=None):
        """A line, and what it prints: nothing if it is empty, a comment, or after a bad command."""
        line = line if isinstance(line, bytes) else line.encode()
        is_silent = line == b"" or line.startswith(b"#") or self.is_ended
        assert (answer is None) == is_silent and not line.startswith(b"== ") and b"\n" not in line, (self.head, line)
        self.lines.append((line, answer))
        self.is_ended = self.is_ended or BAD_COMMAND in (answer or "")

    def say_all(self, text):
        """Lines of the form `LINE -> ANSWER`."""
        for line in text.strip().splitlines():
            self.say(*split_line(line))

    def script(self):
        return b"".join(line + b"\n" for line in [self.head.encode(), *(line for line, _ in self.lines)])

    def answers(self):
        answers = [answer for _, answer in self.lines if answer is not None]
        status = 2 if self.is_ended else 0
        return "".join(f"{line}\n" for line in [self.head, *answers, f"== status {status}"]).encode()


def shape_of(op):
    """The shape of an operation in a plan."""
    kind, number, place, content = op
    if kind == "n":
        return f"n:{len(content)}"
    return f"{kind}:{number}" + {"w": f":{place}:{len(content)}", "l": f":{place}"}.get(kind, "")


def word_of(content):
    """The word of a commit that gives these bytes: many copies of a character are counted."""
    text = content.decode()
    return f"@{len(text)}:{text[0]}" if len(text) > 64 and len(set(text)) == 1 else text


def all_strings(count):
    """Each string of kept, lost and torn writes over so many unflushed writes."""
    return ["".join(letters) for letters in itertools.product("klt", repeat=count)]


def told(text):
    """The text of a row with its numbers.

    - `MAX_LENGTH` stands for the greatest length of an object, also with a number behind it that is added or taken off,
      as in `MAX_LENGTH+1`.
    - `SHAPE*COUNT ` stands for so many of the same shapes, each with a space behind it.
    """
    text = re.sub(r"MAX_LENGTH([+-]\d+)?", lambda found: str(layout.MAX_LENGTH + int(found[1] or 0)), text)
    return re.sub(r"\b(\w:[\w:]+)\*(\d+) ", lambda found: f"{found[1]} " * int(found[2]), text)


def split_line(text):
    """The line and the answer of `LINE -> ANSWER`, or a line without an answer, with its numbers told."""
    line, arrow, answer = told(text).partition(" -> ")
    return (line.rstrip(), answer) if arrow else (line, None)


def read_rows(path):
    """The rows of a file. Its lines are

        == SIZE MOMENT TITLE       a row begins
        ## TEXT                    for who reads the file
        LINE -> ANSWER             a line of the script, and what it prints
        LINE                       a line of the script that prints nothing

    and empty ones, which are no lines of the script. Titles and lines have numbers as `told` says.
    """
    rows = []
    for text in path.read_text().splitlines():
        if text.startswith("== "):
            _, size, moment, title = text.split(" ", 3)
            rows.append(Row(told(title), int(size), int(moment)))
        elif text and not text.startswith("##"):
            rows[-1].say(*split_line(text))
    return rows


def row_files():
    """The files of the rows that are written by hand."""
    return sorted(FOLDER.glob("*.rows"))


def rows_with(word):
    """The rows of the files that are written by hand whose file or title has a word."""
    return [row for path in row_files() for row in read_rows(path) if word in path.name or word in row.head]
