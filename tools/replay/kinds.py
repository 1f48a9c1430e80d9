"""A schedule that runs a collective of each kind among some nodes, and what its lines are answered, by docs/COLLECTIVES.md."""
import struct

from .collectives import KINDS, Shape

AREA, ROOM, DEST = 4_096, 16, 1_024  # where the parts begin, their room, and where results go
SEGMENT = 16_384
RESEND = 10
WORDS = 2  # that a node gives


def head(nodes):
    return (
        f"gasnet 2\njob 7\nnodes {nodes}\ncredits 1\nthreads 1\nsegment {SEGMENT}\nlast 1000000\nresend {RESEND}\npatience 1\n"
        f"sieve 0 0 0\ncollect {AREA} {ROOM}\nschedule\n"
    )


def given(number, node):
    """The words of a node, of the collective of this number: some of them near the end of their range."""
    return [(3 + number + 7 * node) % 11, 2**64 - 1 - (number + 5 * node) % 13]


class Kinds:
    """The lines so far, each with its time, and their answers."""

    def __init__(self, nodes):
        self.nodes, self.now = nodes, 0
        self.lines, self.answers = [], []
        for number, kind in enumerate(KINDS):
            self.collective(number, kind)

    def line(self, event, answer):
        self.lines.append(f"{self.now} {event}")
        self.answers.append(answer)

    def each(self, words, answer):
        for node in range(self.nodes):
            self.line(f"call {node} 0 {words}", answer(node))

    def collective(self, number, kind):
        """All nodes start it and send to all others, all first datagrams are lost, and all nodes end it."""
        shape = Shape(kind, length=8 * WORDS)
        shape.root = number % self.nodes if shape.has_root else 0
        words = [given(number, node) for node in range(self.nodes)]
        for place in range(WORDS):
            for node in range(self.nodes):
                self.line(f"call {node} 0 set-word {8 * place} {words[node][place]}", "ok")
        self.each(f"coll-start {kind} {shape.root} 0 {shape.length}", lambda node: "ok")
        for step in range(self.nodes - 1):
            self.each("coll-step", lambda node: f"sent {step + (step >= node)}")
        self.each("coll-step", lambda node: "nothing")
        self.each(f"coll-try {DEST}", lambda node: "not-ready" if self.nodes > 1 else "ok")
        self.now += RESEND
        self.line(f"settle {2 * self.nodes}", "settled")
        self.each(f"coll-try {DEST}", lambda node: "ok" if self.nodes > 1 else "not-started")
        results = [shape.result([struct.pack("<2Q", *one) for one in words], node) for node in range(self.nodes)]
        for node, result in enumerate(results):
            if result:
                self.line(f"call {node} 0 show {DEST} {len(result)}", f"bytes {result.hex()}")

    @property
    def text(self):
        return head(self.nodes) + "".join(line + "\n" for line in self.lines) + "end\ndone\n"
