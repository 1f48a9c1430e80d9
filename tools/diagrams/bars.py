"""The figures of bench/README.md as bars."""
import re
from pathlib import Path

from .shapes import LINE, PAD, Shapes

PAGE = Path(__file__).resolve().parent.parent.parent / "bench/README.md"
TABLES = {"From C": "Two processes, by gasnet.h", "Coarrays": "Coarrays, in microseconds"}
NAMES, BARS, BAR, VALUE = 240, 480, 12, 110  # the columns, and a bar's height
COLOURS = ("request", "reply", "deferred")


def cells(line):
    return [cell.strip() for cell in line.strip().strip("|").split("|")]


def number(cell):
    """The first number of a cell, or None."""
    found = re.match(r"[\d,]+(?:\.\d+)?", cell)
    return float(found[0].replace(",", "")) if found else None


def table(heading):
    """The first table behind a heading: the names of its columns, and its rows."""
    text = PAGE.read_text().split(f"\n## {heading}\n")[1].split("\n## ")[0]
    lines = [line for line in text.splitlines() if line.startswith("|")]
    kept = [place for place, name in enumerate(cells(lines[0])) if place and name.lower() != "ratio"]
    rows = [(cells(line)[0], [cells(line)[place] for place in kept]) for line in lines[2:]]
    return [cells(lines[0])[place] for place in kept], [row for row in rows if sum(number(cell) is not None for cell in row[1]) > 1]


def row_of(out, y, name, values):
    """Draws a row: a bar for each column, in parts of the row's greatest number; answers its lower edge."""
    out.text(PAD, y + 11, name, "key fill-ink")
    most = max(number(cell) or 0 for cell in values)
    for place, cell in enumerate(values):
        if number(cell) is not None:
            width = BARS * number(cell) / most
            out.rect(NAMES, y + 2, width, BAR - 3, f"fill-{COLOURS[place]}")
            out.text(NAMES + width + 6, y + 10, cell.split(" (")[0], "key fill-dim")
            y += BAR
    return y + 8


def picture():
    out, y = Shapes(), 8
    for heading, title in TABLES.items():
        columns, rows = table(heading)
        out.text(PAD, y + 12, title, "key fill-ink")
        for place, name in enumerate(columns):
            x = NAMES + 170 * place
            out.rect(x, y + 3, BAR, BAR - 2, f"fill-{COLOURS[place]}")
            out.text(x + BAR + 6, y + 12, "this" if name == "Ours" else name, "key fill-dim")
        y += 2 * LINE
        for name, values in rows:
            y = row_of(out, y, name, values)
        y += LINE
    width = NAMES + BARS + VALUE
    out.parts.insert(0, f'<rect x="0" y="0" width="{width}" height="{y}" class="fill-paper"/>')
    return out.svg(width, y, "The speed beside other systems; each row has bars of its own scale")
