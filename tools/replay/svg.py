"""Parts of an SVG picture, in light and in dark."""
from dataclasses import dataclass, field
from html import escape
from math import hypot

PALETTE = {  # by class: in light, in dark
    "paper": ("#ffffff", "#14171a"),
    "band": ("#eef2f6", "#1f262c"),
    "rail": ("#b8bfc6", "#4a545d"),
    "dim": ("#5f6b76", "#9aa6b1"),
    "ink": ("#1d2329", "#e3e8ed"),
    "request": ("#1661ab", "#79b8f3"),
    "reply": ("#23762f", "#7fce8b"),
    "deferred": ("#a45d00", "#f5b556"),
    "lost": ("#b3261e", "#ff8a80"),
}


def style():
    """Each class as a stroke and as a fill, in light and in dark."""
    def rules(shade):
        return " ".join(
            f".{name} {{ stroke: {colours[shade]} }} .fill-{name} {{ fill: {colours[shade]}; stroke: none }}"
            for name, colours in PALETTE.items()
        )  # fmt: skip

    halo = "paint-order: stroke; stroke-width: 3px; stroke-linejoin: round"
    return (
        "text { font: 11px ui-monospace, monospace } .head { font: bold 12px sans-serif; text-anchor: middle } "
        f".label {{ font: 11px sans-serif; {halo} }} .key {{ font: 11px sans-serif }} .end {{ text-anchor: end }} "
        "line { stroke-width: 1.5 } .retransmission { stroke-dasharray: 8 4 } .duplicate { stroke-dasharray: 2 3 } "
        f"{rules(0)} .label {{ stroke: {PALETTE['paper'][0]} }} "
        f"@media (prefers-color-scheme: dark) {{ {rules(1)} .label {{ stroke: {PALETTE['paper'][1]} }} }}"
    )


@dataclass
class Drawing:
    """Parts of a picture."""

    parts: list = field(default_factory=list)

    def line(self, x1, y1, x2, y2, kind):
        self.parts.append(f'<line x1="{x1:g}" y1="{y1:g}" x2="{x2:g}" y2="{y2:g}" class="{kind}"/>')

    def text(self, x, y, words, kind):
        self.parts.append(f'<text x="{x:g}" y="{y:g}" class="{kind}">{escape(words)}</text>')

    def rect(self, x, y, width, height, kind):
        self.parts.append(f'<rect x="{x:g}" y="{y:g}" width="{width:g}" height="{height:g}" class="{kind}"/>')

    def circle(self, x, y, radius, kind):
        self.parts.append(f'<circle cx="{x:g}" cy="{y:g}" r="{radius:g}" class="{kind}"/>')

    def tip(self, x1, y1, x2, y2, kind):
        """The head of an arrow, whose point stands a little before its end."""
        length = hypot(x2 - x1, y2 - y1) or 1
        right, down = (x2 - x1) / length, (y2 - y1) / length
        x, y = x2 - 5 * right, y2 - 5 * down
        back_x, back_y = x - 9 * right, y - 9 * down
        points = [(x, y), (back_x - 3.5 * down, back_y + 3.5 * right), (back_x + 3.5 * down, back_y - 3.5 * right)]
        self.parts.append(f'<polygon points="{" ".join(f"{a:.1f},{b:.1f}" for a, b in points)}" class="fill-{kind}"/>')

    def cross(self, x, y, kind):
        self.line(x - 4, y - 4, x + 4, y + 4, kind)
        self.line(x - 4, y + 4, x + 4, y - 4, kind)

    def mark(self, x, y, key, kind):
        """What became of an event, as a mark on the line of its node."""
        if key == "taken":
            self.circle(x, y, 4, f"fill-{kind}")
        elif key == "passed":
            self.circle(x, y, 4, f"fill-paper {kind}")
        elif key == "deferred":
            self.rect(x - 4, y - 4, 8, 8, "fill-paper deferred")
        elif key == "refused":
            self.cross(x, y, "dim")
        else:
            self.circle(x, y, 3 if kind in ("request", "reply") else 2.5, f"fill-{kind}")

    def svg(self, width, height, title):
        """The picture, with this title."""
        size = f'width="{width:g}" height="{height:g}" viewBox="0 0 {width:g} {height:g}"'
        head = f'<svg xmlns="http://www.w3.org/2000/svg" {size} fill="none">'
        return "\n".join([head, f"<title>{escape(title)}</title>", f"<style>{style()}</style>", *self.parts, "</svg>", ""])
