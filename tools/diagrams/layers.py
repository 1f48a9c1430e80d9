"""The layers of the crates: a box for each, arrows to what it stands on, and the lines of its crates as bars."""
import re
import textwrap

from .shapes import LETTER, LINE, PAD, Shapes

WIDTH, GAP, CHIP, HIGH, BAR = 1130, 32, 152, 36, 92  # of the picture, between boxes, a crate's width and height, the longest bar
EDGE, MOST = PAD / 2, 11_500  # between crates; the lines of the longest bar
# From the bottom up, boxes of one height: each with its left and its right edge, in parts of the width. They stand on what is below.
ROWS = [
    [("base", 0, 1)],
    [("wire", 0, 1)],
    [("part", 0, 1)],
    [("spec", 0, 1)],
    [("node", 0, 1)],
    [("library", 0, 0.32)],
    [("law", 0.36, 0.67), ("text", 0.69, 1)],
    [("C layer", 0, 0.155), ("example", 0.165, 0.32)],
    [("coarrays", 0, 0.155)],
    [("proc", 0.36, 0.67), ("sim", 0.69, 1)],
    [("test", 0.36, 0.515), ("cli", 0.535, 1)],
    [("program", 0.535, 1)],
]
SHADES = ("1", ".55", ".25")  # of the lines of src, specs and proofs
COLOURS = {True: "request", False: "deferred"}  # in libgasnet, or not


def sizes_of(svg):
    """The lines that a picture has been drawn with."""
    found = re.search(r"<!-- lines: (.*) -->", svg)
    return {name: [int(one) for one in numbers.split()] for name, numbers in re.findall(r"(\S+) ([\d ]+);", found[1])} if found else {}


def thousands(count):
    return f"{count / 1000:.1f}k"


class Box:
    """A layer's box: its edges, its text, and the crates in it."""

    def __init__(self, layer, left, right, sizes):
        self.layer, self.x, self.width, self.y, self.low = layer, left * WIDTH, (right - left) * WIDTH, 0, None
        fits = int((self.width - 2 * PAD) / LETTER)
        total = [sum(sizes[crate][part] for crate in layer.crates) for part in range(3)]
        self.lines = f"{sum(total):,} lines"
        head = f"{layer.name}   {layer.about}"
        self.about = [layer.about] if len(head) + len(self.lines) + 2 < fits else textwrap.wrap(layer.about, fits)
        self.wide = len(self.about) == 1 and len(head) + len(self.lines) + 2 < fits
        self.columns = max(1, int((self.width - 2 * PAD + EDGE) / (CHIP + EDGE)))
        rows = -(-len(layer.crates) // self.columns)
        self.top = PAD + LINE * (1 if self.wide else 1 + len(self.about))
        self.height = self.top + rows * (HIGH + EDGE) - EDGE + PAD

    def draw(self, out, sizes, library):
        out.rect(self.x, self.y, self.width, self.height, "fill-band")
        out.rect(self.x, self.y, self.width, self.height, "rail")
        out.bold(self.x + PAD, self.y + PAD + 9, self.layer.name)
        out.text(self.x + self.width - PAD, self.y + PAD + 9, self.lines, "key end fill-dim")
        for place, line in enumerate(self.about):
            x = self.x + PAD + (LETTER + 1) * (len(self.layer.name) + 2) if self.wide else self.x + PAD
            out.text(x, self.y + PAD + 9 + LINE * (0 if self.wide else place + 1), line, "key fill-dim")
        for place, crate in enumerate(self.layer.crates):
            x = self.x + PAD + place % self.columns * (CHIP + EDGE)
            y = self.y + self.top + place // self.columns * (HIGH + EDGE)
            out.chip(x, y, crate, sizes[crate], crate in library)


class Layers(Shapes):
    """A drawing of layers."""

    def bold(self, x, y, words):
        self.parts.append(f'<text x="{x:g}" y="{y:g}" class="key fill-ink" style="font-weight: bold; font-size: 12px">{words}</text>')

    def tint(self, x, y, width, height, kind, shade):
        self.parts.append(f'<rect x="{x:g}" y="{y:g}" width="{width:.1f}" height="{height:g}" class="fill-{kind}" fill-opacity="{shade}"/>')

    def bar(self, x, y, sizes, kind, height=8):
        """The lines of src, specs and proofs, one behind the other; answers where they end."""
        for count, shade in zip(sizes, SHADES):
            self.tint(x, y, BAR * count / MOST, height, kind, shade)
            x += BAR * count / MOST
        return x

    def chip(self, x, y, crate, sizes, inside):
        kind = COLOURS[inside]
        self.rect(x, y, CHIP, HIGH, "fill-paper")
        self.tint(x, y, CHIP, HIGH, kind, ".13")
        self.rect(x, y, CHIP, HIGH, kind)
        self.text(x + 8, y + 14, crate, "key fill-ink")
        end = self.bar(x + 8, y + 21, sizes, kind)
        self.text(end + 6, y + 29, thousands(sum(sizes)), "key fill-dim")


def direct(layers):
    """The pairs of layers of which one stands on the other, less those that follow from others."""
    def under(name):
        found = set(layers[name].below)
        return found.union(*(under(other) for other in found))  # fmt: skip

    for name, layer in layers.items():
        for lower in layer.below:
            if not any(lower in under(other) for other in layer.below):
                yield name, lower


def overlap(one, other):
    """How much of one box is over the other, or under it: nothing where that is below 0."""
    return max(0, min(one.x + one.width, other.x + other.width) - max(one.x, other.x))


def arrow_between(out, upper, lower):
    """An arrow from a box down to one on which it stands: straight where one is over the other."""
    if overlap(upper, lower):
        start = end = max(upper.x, lower.x) + overlap(upper, lower) / 2
    elif upper.x > lower.x:
        start, end = upper.x + 40, lower.x + lower.width - 40
    else:
        start, end = upper.x + upper.width - 40, lower.x + 40
    out.arrow(start, upper.y + upper.height, end, lower.y + 5, "ink")


def legend(out, sizes, library, y):
    """What colours, bars and arrows say."""
    crates = [name for name in library if not name.startswith("c/")]
    proved, code = sum(sum(sizes[name]) for name in crates), sum(sum(sizes[name]) for name in library if name.startswith("c/"))
    rest = sum(sum(size) for name, size in sizes.items() if name not in library)
    told = [
        (True, "in libgasnet", f"{len(crates)} crates, {proved:,} lines; {code:,} of C over them"),
        (False, "simulator and checker", f"{len(sizes) - len(library)} crates, {rest:,} lines, with what else isn't in libgasnet"),
    ]
    for inside, name, words in told:
        out.tint(0, y, 26, 30, COLOURS[inside], ".13")
        out.rect(0, y, 26, 30, COLOURS[inside])
        out.bold(36, y + 12, name)
        out.text(36, y + 27, words, "key fill-dim")
        y += 46
    out.text(36, y + 26, "the lines of a crate, in thousands", "key fill-dim")
    x = 36
    for word, shade in zip(("src", "specs", "proofs"), SHADES):
        out.tint(x, y + 2, 18, 8, "ink", shade)
        out.text(x + 24, y + 10, word, "key fill-ink")
        x += 44 + LETTER * len(word)
    y += 42
    out.arrow(13, y - 4, 13, y + 34, "ink")
    out.text(36, y + 8, "stands on: a layer uses only what arrows", "key fill-ink")
    out.text(36, y + 24, "lead to from it, over other layers too", "key fill-ink")


def place(boxes, rows):
    """Puts each row on those below it, as low as it goes; answers the upper edge of all."""
    for row in rows:
        here = [boxes[name] for name, _, _ in row]
        under = [box for box in boxes.values() if box.low is not None and any(overlap(box, one) for one in here)]
        low = min((box.low - box.height for box in under), default=GAP) - GAP
        height = max(box.height for box in here)
        for box in here:
            box.low, box.height = low, height
    return min(box.low - box.height for box in boxes.values())


def picture(layers, sizes, library):
    """The picture: the layers from the bottom up."""
    out = Layers()
    boxes = {name: Box(layers[name], left, right, sizes) for row in ROWS for name, left, right in row}
    top = place(boxes, ROWS)
    for box in boxes.values():
        box.y = box.low - box.height - top
        box.draw(out, sizes, library)
    for upper, lower in direct(layers):
        arrow_between(out, boxes[upper], boxes[lower])
    legend(out, sizes, library, 4)
    width, height = WIDTH + 2 * PAD, 2 * PAD - top
    out.parts.insert(0, f'<rect x="{-PAD}" y="{-PAD}" width="{width}" height="{height:g}" class="fill-paper"/>')
    out.parts.append(f"<!-- lines: {' '.join(f'{name} {size[0]} {size[1]} {size[2]};' for name, size in sizes.items())} -->")
    return out.svg(width, height, "The layers of the crates, the C layer and coarrays").replace('viewBox="0 0', f'viewBox="{-PAD} {-PAD}')
