"""A node's part in the barrier: its notifies, what it heard, and the notes that it has to send."""
from dataclasses import dataclass

from .datagram import NOTE, SHORT, Message, halves, joined, signed

ANONYMOUS, MISMATCH = 1, 2
LAST_PHASE = 2**64 - 1


@dataclass
class Part:
    """Nodes, as a mask, and what they notified: whether it is a mismatch, and the least identifier that is named."""

    mask: int = 0
    mismatch: bool = False
    identifier: int = None

    def joined(self, other):
        named = [one.identifier for one in (self, other) if one.identifier is not None]
        differ = len(set(named)) == 2
        return Part(self.mask | other.mask, self.mismatch or other.mismatch or differ, min(named, default=None))


def part_of(mask, identifier, flags):
    return Part(mask, bool(flags & MISMATCH), None if flags & ANONYMOUS else identifier)


class Barrier:
    def __init__(self, job, me):
        self.job, self.me = job, me
        self.ended = 0  # how many phases, so also the number of the present one
        self.notifies = []
        self.heard = {}
        self.sent = set()

    def own(self, phase):
        return self.notifies[phase] if 0 <= phase < len(self.notifies) else None

    def known(self, phase):
        own = self.own(phase)
        mine = part_of(1 << self.me, *own) if own else Part()
        return mine.joined(self.heard.get(phase, Part()))

    def notify(self, identifier, flags):
        if flags > 3:
            return "bad-flags"
        if self.own(self.ended):
            return "twice"
        if self.ended == LAST_PHASE:
            return "worn-out"
        self.notifies.append((identifier, flags))
        return "ok"

    def attempt(self, identifier, flags, exhausted):
        """A try of the present phase; `exhausted` says of a node that no number is left for it."""
        own = self.own(self.ended)
        if flags > 3 or not own:
            return "bad-flags" if flags > 3 else "no-notify"
        part = self.known(self.ended)
        if part.mask != (1 << self.job.nodes) - 1:
            stuck = [to for to in self.due(self.ended) if exhausted(to)]
            return f"worn-out {min(stuck)}" if stuck else "not-ready"
        self.ended += 1
        other = own[1] != flags or not (flags & ANONYMOUS or own[0] == identifier)
        return "mismatch" if part.mismatch or other else "ok"

    def hear(self, phase, part):
        if phase in (self.ended, self.ended + 1):
            self.heard[phase] = self.heard.get(phase, Part()).joined(part)

    def due(self, phase):
        """The nodes to which a note of the phase must go still: in each round the one 2^r further, once the 2^r nodes up to this
        one are known."""
        if not self.own(phase):
            return set()
        nodes, me, mask, due, step = self.job.nodes, self.me, self.known(phase).mask, set(), 1
        while step < nodes and all(mask >> (me - back) % nodes & 1 for back in range(step)):
            due.add((me + step) % nodes)
            step *= 2
        return {to for to in due if (phase, to) not in self.sent}

    def next_note(self, can_ask):
        """The phase and the target of the note that goes next; of a node the phase before the present one goes first."""
        before, present = self.due(self.ended - 1), self.due(self.ended)
        targets = [to for to in sorted(before | present) if can_ask(to)]
        return (self.ended - 1 if targets[0] in before else self.ended, targets[0]) if targets else None

    def note(self, phase):
        """The note of a phase, as a message."""
        part = self.known(phase)
        words = [signed(part.mask >> 32 * word & 0xFFFFFFFF) for word in range(2 if self.job.version == 1 else 8)]
        flags = ANONYMOUS * (part.identifier is None) + MISMATCH * part.mismatch
        return Message(SHORT, NOTE, [*halves(phase), *words, part.identifier or 0, flags])


def note_said(args):
    """The phase of a note, and what it tells."""
    *phase_and_mask, identifier, flags = args
    mask = sum((word & 0xFFFFFFFF) << 32 * place for place, word in enumerate(phase_and_mask[2:]))
    return joined(*phase_and_mask[:2]), part_of(mask, identifier, flags)


def is_note(job, args):
    """The arguments are those of a note among the nodes of the job."""
    if len(args) != (6 if job.version == 1 else 12) or not 0 <= args[-1] <= 3:
        return False
    return note_said(args)[1].mask >> job.nodes == 0
