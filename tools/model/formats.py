"""The tables of the pages of formats: docs/FORMATS.md, COMMANDS.md, SCRIPTS.md and FRAMES.md, as one text."""

from tools import TOP

PAGES = ["FORMATS", "COMMANDS", "SCRIPTS", "FRAMES"]
TEXT = "\n".join((TOP / f"docs/{page}.md").read_text() for page in PAGES)


def table(head, number=0):
    """The cells of the rows of the first table with this head, or of a later one."""
    rows = TEXT.split(head + "\n")[1 + number].split("\n\n")[0].splitlines()[1:]
    return [[cell.strip().strip("`") for cell in row.strip("|").split(" | ")] for row in rows]
