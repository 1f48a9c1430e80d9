"""Ways through the code, from function to function, in two columns."""
import re
from dataclasses import dataclass, field
from pathlib import Path

from .shapes import LETTER, LINE, PAD, Shapes

TOP = Path(__file__).resolve().parent.parent.parent
LEFT, RIGHT, WIDTH, HEAD, HIGH, GAP, EDGE = 12, 672, 488, 34, 30, 12, 12  # the columns, a box, between boxes, in a frame
BETWEEN = LEFT + WIDTH + 30


@dataclass
class Step:
    """A function that is passed: its column; its home, its name and what it does; and what is passed inside of it."""

    column: int
    outer: tuple
    inner: list = field(default_factory=list)


@dataclass
class Note:
    """Lines of text in a free place: in which column, and beside which step."""

    where: str  # left, between or right
    beside: int
    lines: list


@dataclass
class Way:
    title: str
    columns: tuple
    steps: list
    notes: list = field(default_factory=list)
    named: list = field(default_factory=list)  # functions that notes name


# ---- what is there


def is_there(home, name):
    """Whether a crate has this function, or a file of C."""
    if home.endswith(".c"):
        return re.search(rf"\b{name}\(", (TOP / "c/src" / home).read_text()) is not None
    sources = (TOP / "crates" / home / "src").glob("**/*.rt")
    return any(re.search(rf"\bfn {name}\b", path.read_text()) for path in sources)


def faults(way):
    """The functions of a way that aren't in their homes."""
    steps = [inner[:2] for step in way.steps for inner in (step.outer, *step.inner)]
    return [f"{way.title}: {home} has no function {name}" for home, name in [*steps, *way.named] if not is_there(home, name)]


# ---- the picture


def box(out, x, y, width, words):
    """A box of one line: where a function stands, its name, and what it does. What is C's, and tested, is white."""
    home, name, told = words
    out.rect(x, y, width, HIGH, "fill-paper" if home.endswith(".c") else "fill-band")
    out.rect(x, y, width, HIGH, "rail")
    head = f"{home}: {name}"
    out.text(x + PAD, y + 19, head, "key fill-ink")
    out.text(x + PAD + LETTER * len(head) + 12, y + 19, told, "key fill-dim")


def frame(out, x, y, step):
    """A step with those inside of it; answers its height."""
    box(out, x, y, WIDTH, step.outer)
    if not step.inner:
        return HIGH
    low = y + HIGH + GAP / 2
    for place, words in enumerate(step.inner):
        box(out, x + EDGE, low, WIDTH - 2 * EDGE, words)
        if place:
            out.arrow(x + WIDTH / 2, low - GAP, x + WIDTH / 2, low + 4, "ink")
        low += HIGH + GAP
    out.rect(x, y, WIDTH, low - y, "ink")
    return low - y


def cross(out, start, end, column):
    """An arrow into this column, from the other one."""
    ends = (LEFT + WIDTH, RIGHT) if column else (RIGHT, LEFT + WIDTH)
    out.arrow(ends[0], start, ends[1], end, "request" if column else "reply")


def picture(way):
    out, y, before, edge, tops = Shapes(), HEAD, None, 0, []
    for x, words in zip((LEFT, RIGHT), way.columns):
        out.text(x + PAD, 22, words, "key fill-ink")
    for step in way.steps:
        x, top = (LEFT, RIGHT)[step.column], y
        y += frame(out, x, y, step)
        if before == step.column:
            out.arrow(x + WIDTH / 2, edge, x + WIDTH / 2, top + 4, "ink")
        elif before is not None:
            cross(out, edge - HIGH / 2, top + HIGH / 2, step.column)
        before, edge = step.column, y
        tops.append(top)
        y += 2 * GAP
    for note in way.notes:
        x = {"left": LEFT + PAD, "between": BETWEEN, "right": RIGHT + PAD}[note.where]
        out.label(x, (tops[note.beside] if note.beside < len(tops) else y) + LINE, note.lines)
    width = RIGHT + WIDTH + 12
    out.parts.insert(0, f'<rect x="0" y="0" width="{width}" height="{y:g}" class="fill-paper"/>')
    return out.svg(width, y, way.title)
