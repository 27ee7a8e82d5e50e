"""What a terminal shows of the bytes that a program writes to it."""

import re

# Erases from the place to the end of the line.
ERASE = b"\x1b[K"
PART = re.compile(rb"\x1b\[K|[\r\n]|[^\r\n\x1b]+|\x1b")


def screen(text):
    """The lines that a terminal shows after these bytes, the last one where it would go on. A return leads to the start
    of the line, and what is written there takes the place of what it had."""
    lines, at = [b""], 0
    for part in PART.findall(text):
        if part == b"\r":
            at = 0
        elif part == b"\n":
            lines.append(b"")
            at = 0
        elif part == ERASE:
            lines[-1] = lines[-1][:at]
        else:
            end = at + len(part)
            lines[-1] = lines[-1][:at] + part + lines[-1][end:]
            at = end
    return [line.decode(errors="replace") for line in lines]
