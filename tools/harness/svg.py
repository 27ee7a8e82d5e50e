"""Pictures in SVG, which a page on a light background shows without another file."""

from xml.sax.saxutils import escape, quoteattr

from tools import Failed

FONT = "DejaVu Sans, Verdana, Helvetica, Arial, sans-serif"
INK, PALE, PAPER = "#1a1a1a", "#c8c8c8", "#ffffff"


def shown(number):
    """A number with commas, as people read it."""
    return f"{number:,}"


def short(number):
    """A coordinate without needless digits."""
    return f"{number:.2f}".rstrip("0").rstrip(".")


class Picture:
    """The elements of a picture of this size in pixels. Its title and its text are for those who can't see it."""

    def __init__(self, width, height, title, text):
        self.width, self.height = width, height
        self.lines = [f"<title>{escape(title)}</title>", f"<desc>{escape(text)}</desc>"]
        self.box(0.5, 0.5, width - 1, height - 1, fill=PAPER, stroke=PALE, rx=6)

    def add(self, element, content=None, **attributes):
        """An element with these attributes, of whose names `_` stands for `-`."""
        words = [element]
        for name, value in attributes.items():
            value = short(value) if isinstance(value, (int, float)) else value
            words.append(f"{name.rstrip('_').replace('_', '-')}={quoteattr(value)}")
        end = "/>" if content is None else f">{content}</{element}>"
        self.lines.append(f"<{' '.join(words)}{end}")

    def box(self, x, y, width, height, **attributes):
        self.add("rect", x=x, y=y, width=width, height=height, **attributes)

    def line(self, x, y, to_x, to_y, **attributes):
        self.add("line", **{"x1": x, "y1": y, "x2": to_x, "y2": to_y, "stroke": INK, **attributes})

    def write(self, x, y, content, size=13, **attributes):
        """A line of text that begins at x, or as `text_anchor` says."""
        self.add("text", escape(content), **{"x": x, "y": y, "font_size": size, "fill": INK, **attributes})

    def text(self):
        """The file."""
        size = f'width="{self.width}" height="{self.height}" viewBox="0 0 {self.width} {self.height}"'
        head = f'<svg xmlns="http://www.w3.org/2000/svg" role="img" {size} font-family="{FONT}">'
        return "\n".join([head, *self.lines, "</svg>"]) + "\n"


def write_file(path, text):
    """Writes a text into a file, or says why not."""
    try:
        path.write_text(text)
    except OSError as error:
        raise Failed(str(error), status=2) from None
