"""Makes the scripts that `script_rows` runs, and the answers that they have to print.

It writes `scripts` and `answers` of `tools/rows/made`, or says whether they are what it would write. The rows are those
of `tools/rows/all_rows.py`.

In `scripts` a row begins with `== SIZE MOMENT TITLE`, and its script follows. In `answers` that line stands again, then
the answers, then `== status S`: 2 if the last answer tells of a bad command, else 0.
"""

from tools import TOP
from tools.rows.all_rows import all_rows

MADE = TOP / "tools/rows/made"


def add_arguments(parser):
    parser.add_argument("--check", action="store_true", help="write nothing; the status is 1 if a file differs")


def main(check):
    rows = list(all_rows())
    scripts = b"".join(row.script() for row in rows)
    # The last line of the last script has no newline, as the last line of a script may.
    made = {"scripts": scripts[:-1], "answers": b"".join(row.answers() for row in rows)}
    differs = False
    for name, text in made.items():
        path = MADE / name
        if not check:
            path.write_bytes(text)
        elif not path.exists() or path.read_bytes() != text:
            print(f"make_rows.py: {path} is not what this tool makes")
            differs = True
    print(f"{len(rows)} scripts, {sum(len(row.lines) for row in rows)} lines, {sum(map(len, made.values()))} bytes")
    return int(differs)
