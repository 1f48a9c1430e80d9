"""Collectives of a node: what it asks the others, the handler that keeps what they give, and the results."""
import struct
from dataclasses import dataclass

from .datagram import halves, joined

COLLECTIVE = 254
HEADER = struct.Struct("<QQ")  # of a part: the stamp, and the word of the shape
WORD = 8
LIMIT = 2**64
KINDS = ("broadcast", "gather", "all-gather", "sum", "min", "max", "all-sum", "all-min", "all-max")
REDUCTIONS = {"sum": lambda one, other: (one + other) % LIMIT, "min": min, "max": max}
NAMES = ("coll-start", "coll-step", "coll-try")


@dataclass
class Shape:
    kind: str
    root: int = 0
    length: int = 0

    @property
    def has_root(self):
        return not self.kind.startswith("all-")

    @property
    def reduction(self):
        """How two words are taken together; None where they aren't."""
        return REDUCTIONS.get(self.kind.removeprefix("all-"))

    @property
    def word(self):
        return KINDS.index(self.kind) << 48 | self.root << 32 | self.length

    def has_result(self, node):
        return self.kind == "broadcast" or not self.has_root or node == self.root

    def uses(self, source, target):
        """The result of the target uses the bytes of the source."""
        return source == self.root if self.kind == "broadcast" else self.has_result(target)

    def result(self, given, node):
        """What a node gets, where all nodes gave these bytes."""
        if not self.has_result(node):
            return b""
        if self.kind == "broadcast":
            return given[self.root]
        return reduced(self.reduction, given) if self.reduction else b"".join(given)

    def result_length(self, nodes, node):
        many = nodes if self.kind in ("gather", "all-gather") else 1
        return many * self.length if self.has_result(node) else 0


def reduced(together, given):
    """The words of all nodes, taken together place by place."""
    total, *others = ([word for word, in struct.iter_unpack("<Q", one)] for one in given)
    for words in others:
        total = [together(one, other) for one, other in zip(total, words)]
    return struct.pack(f"<{len(total)}Q", *total)


def serve(client, message):
    """Stamp and shape of a message are written in front of its data."""
    good = message.is_long and len(message.args) == 4
    if good and message.offset >= HEADER.size and message.offset % WORD == 0:
        header = HEADER.pack(joined(*message.args[:2]), joined(*message.args[2:]))
        client.write(message.offset - HEADER.size, header)


class Collectives:
    """How far a node is with the collectives of a job."""

    def __init__(self, node):
        self.node, self.job = node, node.job
        self.base, self.room = node.job.collect
        self.started = self.ended = 0
        self.shape = None
        self.sent, self.exhausted = set(), set()

    # ---- the area

    @property
    def others(self):
        return [node for node in range(self.job.nodes) if node != self.node.me]

    def data_place(self, node):
        """Where the data of a node stands, of the phase that is open."""
        part = self.ended % 2 * self.job.nodes + node
        return self.base + part * (HEADER.size + self.room) + HEADER.size

    def header(self, node):
        """The stamp and the word of the shape in the part of a node."""
        return HEADER.unpack(self.node.client.part(self.data_place(node) - HEADER.size, HEADER.size))

    def data(self, node):
        return self.node.client.part(self.data_place(node), self.shape.length)

    def request(self, to, payload):
        """The words of the Long request that brings the own part to a node."""
        args = [*halves(self.ended + 1), *halves(self.shape.word)]
        place = self.data_place(self.node.me)
        return ["long", str(to), str(COLLECTIVE), payload, str(place), *map(str, args)]

    # ---- the calls

    def call(self, now, thread, words):
        """What a call did, by its words; and the message that it sent."""
        name, *rest = words
        if name == "coll-start":
            return self.start(now, thread, rest[0], *map(int, rest[1:])), None
        if name == "coll-step":
            return self.step(now, thread)
        return self.attempt(thread, int(rest[0])), None

    def start(self, now, thread, kind, root, source, length):
        shape = Shape(kind, root, length)
        fault = "busy" if self.started > self.ended else self.start_fault(shape, source)
        if fault:
            return fault
        before, self.shape = self.shape, shape
        answer = self.node.ask(now, thread, self.request(self.node.me, f"{source}+{length}")).answer
        if answer != "ran":
            self.shape = before
            return answer
        self.started += 1
        self.sent, self.exhausted = set(), set()
        return "ok"

    def start_fault(self, shape, source):
        if shape.root >= self.job.nodes or (shape.root and not shape.has_root):
            return "bad-arg root"
        if shape.length > self.room or (shape.reduction and shape.length % WORD):
            return "bad-arg length"
        return None if self.node.client.inside(source, shape.length) else "bad-arg source"

    def step(self, now, thread):
        """Asks the nodes that weren't sent to, until one accepts."""
        if self.started == self.ended:
            return "nothing", None
        for to in self.others:
            if to in self.sent:
                continue
            uses = self.shape.uses(self.node.me, to)
            payload = f"{self.data_place(self.node.me)}+{self.shape.length}" if uses else "x"
            did = self.node.ask(now, thread, self.request(to, payload))
            if did.sent:
                self.sent.add(to)
                return f"sent {to}", did.sent
            if did.answer.startswith("forbidden"):
                return did.answer, None
            (self.exhausted.add if did.answer == "worn-out" else self.exhausted.discard)(to)
        return "nothing", None

    def attempt(self, thread, place):
        """A try to end the collective, whose result goes to this place."""
        if self.started == self.ended:
            return "not-started"
        if self.is_bad(place):
            return "bad-arg dest"
        forbidden = self.node.client.forbidden(thread, "poll")
        if forbidden:
            return forbidden
        if not self.is_ready():
            exhausted = [node for node in self.others if node in self.exhausted - self.sent]
            return f"worn-out {exhausted[0]}" if exhausted else "not-ready"
        return self.end(place)

    def is_bad(self, place):
        """The result can't stand at this place."""
        length = self.shape.result_length(self.job.nodes, self.node.me)
        end = self.base + 2 * self.job.nodes * (HEADER.size + self.room)
        shares = length and place < end and self.base < place + length
        aligned = place % WORD == 0 or not (self.shape.reduction and self.shape.has_result(self.node.me))
        return not self.node.client.inside(place, length) or shares or not aligned

    def is_ready(self):
        stamps = [self.header(node)[0] for node in range(self.job.nodes)]
        return self.sent == set(self.others) and all(stamp == self.ended + 1 for stamp in stamps)

    def end(self, place):
        """The end of a collective that all nodes started; where their shapes are equal its result is written."""
        words = [self.header(node)[1] for node in range(self.job.nodes)]
        other = next((node for node, word in enumerate(words) if word != self.shape.word), None)
        if other is None:
            given = [self.data(node) for node in range(self.job.nodes)]
            self.node.client.write(place, self.shape.result(given, self.node.me))
        self.ended += 1
        return "ok" if other is None else f"mismatch-with {other}"
