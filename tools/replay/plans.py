"""Plans: the pieces of a strided or indexed transfer, by the words of its line."""
from dataclasses import dataclass
from itertools import product

from .transfers import Transfer

PLANS = ("put-s", "get-s", "put-v", "get-v")


@dataclass
class Piece:
    """Bytes of the target's segment and of the own one, as many as continue each other on both sides."""

    remote: int
    local: int
    length: int

    def is_continued_by(self, other):
        return (self.remote + self.length, self.local + self.length) == (other.remote, other.local)


@dataclass
class Plan:
    """What a line says: the pieces, and the first one that is begun."""

    kind: str  # "put" or "get"
    register: int
    start: int
    to: int
    pieces: list

    def transfer(self, number):
        piece = self.pieces[number]
        return Transfer(self.kind, self.to, piece.remote, piece.local, piece.length)


def read_plan(name, words):
    kind, form = name.split("-")
    register, start, to, *rest = map(int, words)
    runs = strided(*rest) if form == "s" else indexed(*rest)
    return Plan(kind, register, start, to, joined(runs))


def strided(remote, local, length, *levels):
    """The bytes of each index vector, the last level fastest."""
    counts, remotes, locals_ = levels[0::3], levels[1::3], levels[2::3]
    for indices in product(*map(range, counts)):
        yield Piece(remote + place(indices, remotes), local + place(indices, locals_), length)


def place(indices, strides):
    return sum(index * stride for index, stride in zip(indices, strides))


def indexed(count, *ranges):
    """The bytes that two lists of ranges pair."""
    pairs = [list(pair) for pair in zip(ranges[0::2], ranges[1::2])]
    remotes, locals_ = pairs[:count], pairs[count:]
    while remotes and locals_:
        length = min(remotes[0][1], locals_[0][1])
        yield Piece(remotes[0][0], locals_[0][0], length)
        for side in (remotes, locals_):
            first = side[0]
            first[0], first[1] = first[0] + length, first[1] - length
            if first[1] == 0:
                side.pop(0)


def joined(runs):
    """Runs of bytes as pieces: none is empty, and none continues the one before it on both sides."""
    pieces = []
    for run in runs:
        if run.length and pieces and pieces[-1].is_continued_by(run):
            pieces[-1].length += run.length
        elif run.length:
            pieces.append(run)
    return pieces
