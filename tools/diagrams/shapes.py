"""Boxes with lines of text, and arrows between them."""
from replay.svg import Drawing

LETTER, LINE, PAD = 6.1, 16, 10  # of a sans-serif letter of 11 pixels, a line of text, and a box's edge


class Shapes(Drawing):
    """A drawing of boxes and arrows."""

    def box(self, x, y, width, lines):
        """A box whose first line is its name; answers its height."""
        height = LINE * len(lines) + 2 * PAD
        self.rect(x, y, width, height, "fill-band")
        self.rect(x, y, width, height, "rail")
        for place, line in enumerate(lines):
            self.text(x + PAD, y + PAD + LINE * place + 11, line, "key fill-ink" if place == 0 else "key fill-dim")
        return height

    def arrow(self, x1, y1, x2, y2, kind):
        """An arrow from one place to another, of this colour."""
        self.line(x1, y1, x2, y2, kind)
        self.tip(x1, y1, x2, y2, kind)

    def label(self, x, y, lines):
        """Lines of text under one another, the first one at y."""
        for place, line in enumerate(lines):
            self.text(x, y + LINE * place, line, "key fill-ink")


def widest(lines):
    """The width of a box that has these lines."""
    return LETTER * max(len(line) for line in lines) + 2 * PAD
