"""A picture of rows, as SVG: time downward, nodes across, an arrow for each message."""
from bisect import bisect_left
from collections import defaultdict

from .arrows import DUPLICATE, RETRANSMISSION, arrows_of
from .svg import Drawing

LEFT, ROW, LETTER = 96, 24, 6.7
WIDEST, NARROWEST, ACROSS = 190, 36, 1200  # a column, and all of them
HEAD, LEGEND, ITEM = 52, 20, 172
WORDS = 76  # letters of a row's text
STUB = 30  # an arrow to another page
MARKS = {"ran": "taken", "returned": "taken", "again": "passed", "stale": "passed", "late": "passed", "deferred": "deferred"}
LEGENDS = {  # what is drawn, by its key, in words
    "request": "request",
    "reply": "reply or Ack",
    "retransmission": "retransmission",
    "duplicate": "duplicate",
    "lost": "loss",
    "foreign": "sent by no node",
    "taken": "ran, or returned",
    "passed": "again, stale or late",
    "deferred": "deferral: a lock is held",
    "refused": "unsent, or refused",
    "local": "a call, or a step",
}


def mark_of(row):
    """The mark of a row, and its colour."""
    word = row.answer.split(" ")[0]
    if row.got or row.foreign:
        key = (row.got or row.foreign.key)[0]
        return MARKS.get(word, "refused"), key
    if word in ("refused", "unsent"):
        return "refused", "dim"
    return "local", row.sent.key[0] if row.sent else "dim"


def arrows_by_page(arrows, rows_of_page):
    """The arrows that begin or end on each page, which is counted from 0."""
    on_page = defaultdict(list)
    for arrow in arrows:
        for page in {place // rows_of_page for place in (arrow.start, arrow.end) if place is not None}:
            on_page[page].append(arrow)
    return on_page


class Picture:
    """The rows of a run, with a title, by pages."""

    def __init__(self, title, heads, nodes, rows, rows_of_page):
        self.title, self.heads, self.nodes, self.rows = title, heads, nodes, rows
        self.arrows = arrows_of(rows)
        self.on_page = arrows_by_page(self.arrows, rows_of_page)
        self.arrow_to = {arrow.end: arrow for arrow in self.arrows if arrow.end is not None}
        self.ends = defaultdict(list)  # of the row of each sending, in order
        for end in sorted(self.arrow_to):
            self.ends[self.arrow_to[end].start].append(end)
        self.column = max(NARROWEST, min(WIDEST, ACROSS // nodes))
        self.step = rows_of_page
        self.pages = max(1, -(-len(rows) // rows_of_page))
        self.keys = self.drawn_keys()
        longest = max((min(WORDS, len(row.text)) for row in rows), default=0)
        self.width = max(LEFT + self.column * nodes + 16 + LETTER * longest, LEFT + 3 * ITEM)
        in_row = int((self.width - LEFT) // ITEM)
        self.legend = [self.keys[first : first + in_row] for first in range(0, len(self.keys), in_row)]
        self.top = HEAD + LEGEND * len(self.legend)

    def drawn_keys(self):
        """What the legend has to explain: what is drawn anywhere in the run."""
        keys = {mark_of(row)[0] for row in self.rows if row.node is not None and (row.got or not row.sent)}
        for arrow in self.arrows:
            keys |= {"foreign"} if arrow.start is None else {arrow.kind, arrow.look}
            keys |= {"lost"} if arrow.end is None else set()
        return [key for key in LEGENDS if key in keys]

    def x(self, node):
        return LEFT + self.column * node + self.column // 2

    def ends_out(self, start, behind):
        """The rows from one on to which the message comes that was sent in a row."""
        return self.ends[start][bisect_left(self.ends[start], behind) :]

    def first_out(self, start, behind):
        return self.arrow_to[self.ends_out(start, behind)[0]]

    def page(self, number):
        """The SVG of a page, counted from 1."""
        return Page(self, (number - 1) * self.step).svg(number)


class Page:
    """The rows from one on, as many as a page has."""

    def __init__(self, picture, first):
        self.picture, self.first = picture, first
        self.rows = picture.rows[first : first + picture.step]
        self.bottom = picture.top + ROW * len(self.rows)
        self.out = Drawing()

    def y(self, place):
        return self.picture.top + ROW * (place - self.first) + ROW // 2

    def has(self, place):
        return 0 <= place - self.first < len(self.rows)

    def svg(self, number):
        picture, width, height = self.picture, self.picture.width, self.bottom + 14
        title = picture.title + (f", page {number} of {picture.pages}" if picture.pages > 1 else "")
        self.out.rect(0, 0, width, height, "fill-paper")
        self.out.text(8, 18, title, "key fill-ink")
        self.legend()
        self.rails()
        for place, row in enumerate(self.rows, self.first):
            self.row(place, row)
        for arrow in picture.on_page[number - 1]:
            self.arrow(arrow)
        for place, row in enumerate(self.rows, self.first):
            self.mark(place, row)
        return self.out.svg(width, height, title)

    # ---- head and rows

    def legend(self):
        for line, keys in enumerate(self.picture.legend):
            for place, key in enumerate(keys):
                x, y = 8 + ITEM * place, 34 + LEGEND * line
                self.sample(x, y, key)
                self.out.text(x + 34, y + 4, LEGENDS[key], "key fill-dim")

    def sample(self, x, y, key):
        if key in ("request", "reply", RETRANSMISSION, DUPLICATE):
            kind = key if key in ("request", "reply") else "request"
            self.out.line(x, y, x + 21, y, f"{kind} {key}")
            self.out.tip(x, y, x + 31, y, kind)
        elif key == "lost":
            self.out.line(x, y, x + 18, y, "request")
            self.out.cross(x + 18, y, "lost")
        elif key == "foreign":
            self.out.line(x, y, x + 21, y, "lost")
            self.out.tip(x, y, x + 31, y, "lost")
        else:
            self.out.mark(x + 14, y, key, "dim" if key in ("refused", "local") else "request")

    def rails(self):
        picture = self.picture
        for words, x in zip(picture.heads, (LEFT - 58, LEFT - 8)):
            self.out.text(x, picture.top - 6, words, "key end fill-dim")
        for node in range(picture.nodes):
            x = picture.x(node)
            words = f"node {node}" if picture.column > 60 else str(node)
            self.out.text(x, picture.top - 6, words, "head fill-ink")
            self.out.line(x, picture.top, x, self.bottom, "rail")

    def row(self, place, row):
        picture, y = self.picture, self.y(place)
        words = row.text if len(row.text) <= WORDS else row.text[: WORDS - 1] + "…"
        if row.within:
            self.out.rect(0, y - ROW // 2, picture.width, ROW, "fill-band")
            for node in range(picture.nodes):
                self.out.line(picture.x(node), y - ROW // 2, picture.x(node), y + ROW // 2, "rail")
        self.out.text(LEFT - 58, y + 4, row.place, "end fill-dim")
        self.out.text(LEFT - 8, y + 4, str(row.time), "end fill-dim")
        indent = 12 if row.within and row.node is not None else 0
        self.out.text(LEFT + picture.column * picture.nodes + 8 + indent, y + 4, words, "fill-ink")

    # ---- marks and arrows

    def mark(self, place, row):
        if row.node is not None:
            key, kind = mark_of(row)
            self.out.mark(self.picture.x(row.node), self.y(place), key, kind)
        if row.sent:
            x, side = self.picture.x(row.sent.source), row.sent.side
            self.beside(x - 4 * side, self.y(place) + 4, -side, row.sent.name, row.sent.key[0])

    def arrow(self, arrow):
        if arrow.end is None:
            self.loss(arrow)
        elif arrow.start is None:
            self.foreign(arrow)
        elif self.has(arrow.start) and self.has(arrow.end):
            x1, x2 = self.picture.x(arrow.message.source), self.picture.x(arrow.message.target)
            self.way(arrow, x1, self.y(arrow.start), x2, self.y(arrow.end))
        elif self.has(arrow.end):
            self.comes_in(arrow)
        elif arrow is self.picture.first_out(arrow.start, self.first + len(self.rows)):
            self.goes_out(arrow)

    def way(self, arrow, x1, y1, x2, y2):
        kind = "deferred" if arrow.deferred else arrow.kind
        self.out.line(x1, y1, x2, y2, f"arrow {kind} {arrow.look}")
        self.out.tip(x1, y1, x2, y2, kind)

    def comes_in(self, arrow):
        """The end of an arrow from a page before, with the place of its start."""
        x, y, side = self.picture.x(arrow.message.target), self.y(arrow.end), arrow.message.side
        self.way(arrow, x - STUB * side, y - 8, x, y)
        words = f"{arrow.message.name}, {self.picture.rows[arrow.start].place}"
        self.beside(x - STUB * side, y - 6, -side, words, arrow.kind)

    def goes_out(self, arrow):
        """The starts of the arrows of a sending to later pages, with the places of their ends."""
        x, y, side = self.picture.x(arrow.message.source), self.y(arrow.start), arrow.message.side
        self.out.line(x, y, x + STUB * side, y + 8, f"arrow {arrow.kind} {arrow.look}")
        ends = self.picture.ends_out(arrow.start, self.first + len(self.rows))
        self.beside(x + STUB * side, y + 12, side, ", ".join(self.picture.rows[end].place for end in ends), arrow.kind)

    def beside(self, x, y, side, words, kind):
        """A label on this side of a place."""
        anchor = "" if side > 0 else " end"
        self.out.text(x + 4 * side, y, words, f"label fill-{kind}{anchor}")

    def loss(self, arrow):
        x1, y1 = self.picture.x(arrow.message.source), self.y(arrow.start)
        x2 = x1 + (self.picture.x(arrow.message.target) - x1) / 3
        self.out.line(x1, y1, x2, y1 + 8, f"arrow {arrow.kind} {arrow.look}")
        self.out.cross(x2, y1 + 8, "lost")

    def foreign(self, arrow):
        x2, y2 = self.picture.x(arrow.message.target), self.y(arrow.end)
        x1 = x2 + (self.picture.x(arrow.message.source) - x2) / 3
        self.out.line(x1, y2 - 8, x2, y2, "arrow lost")
        self.out.tip(x1, y2 - 8, x2, y2, "lost")
