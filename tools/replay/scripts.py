"""The steps of scripts: how each is tried, and where it ends."""
from dataclasses import dataclass

from .client import KINDS

WAITING_SYNCS = {  # which call each of these tries
    "wait": "try",
    "wait-all": "try-all",
    "wait-some": "try-some",
    "wait-nbi": "try-nbi",
    "barrier-wait": "try-barrier",
}
PUTS = {"put-nb": "put-nb-bulk", "put-nbi": "put-nbi-bulk"}
BLOCKING = {"put", "get", "memset"}


@dataclass
class Tried:
    """How a try went: the answer of the step, where it ended it; what it sent; and that it began what a later try finds again."""

    ended: str = None
    sent: object = None
    began: bool = False


class Script:
    """What a thread has still to do."""

    def __init__(self, node, thread, steps):
        self.node, self.thread, self.left = node, thread, list(steps)
        self.done = 0
        self.began = None  # the answer with which the step began

    def attempt(self, now):
        """A try of the next step, if there is one; its words, and how it went."""
        if not self.left:
            return None, Tried()
        step = self.left[0]
        tried = self.attempt_step(now, step)
        if tried.ended is not None:
            self.left.pop(0)
            self.done, self.began = self.done + 1, None
        return step, tried

    def attempt_step(self, now, step):
        name = step[0]
        if name == "until":
            reached = self.node.client.cells[int(step[1])] >= self.node.client.value(step[2])
            return Tried("ok" if reached else None)
        if name == "until-word":
            found = self.node.client.word(int(step[1]))
            return Tried("ok" if found == f"word {step[2]}" else None if found.startswith("word") else found)
        if name in BLOCKING:
            return self.attempt_transfer(now, step)
        if name in PUTS:
            return self.attempt_put(now, [PUTS[name], *step[1:]])
        if name == "coll":
            return self.attempt_collective(now, *step[1:])
        did = self.node.call(now, self.thread, [WAITING_SYNCS.get(name, name), *step[1:]])
        return Tried(None if waits(name, did.answer) else did.answer, did.sent)

    def attempt_transfer(self, now, step):
        """A transfer that waits until it is complete."""
        if self.began is None:
            answer = self.node.call(now, self.thread, step).answer
            if answer.split()[0] == "handle":
                self.began = answer
                return Tried(began=True)
            return Tried("ok" if answer == "done" else answer)
        transfers = self.node.transfers
        answer = self.node.client.forbidden(self.thread, "sync")
        answer = answer or transfers.sync(self.thread, [number_of(self.began)], self.node.exhausted)
        return Tried(None if answer == "not-ready" else answer)

    def attempt_put(self, now, call):
        """A put that waits until all its chunks were issued."""
        begins = self.began is None
        answer = self.node.call(now, self.thread, call).answer if begins else self.began
        if answer.split()[0] in ("handle", "started") and self.node.transfers.is_unissued(number_of(answer)):
            self.began = answer
            return Tried(began=begins)
        return Tried(answer)


    def attempt_collective(self, now, kind, root, source, length, dest):
        """A collective: its start, until no lock is in the way; then a step and a try at each turn, until it is over."""
        if self.began is None:
            answer = self.node.call(now, self.thread, ["coll-start", kind, root, source, length]).answer
            if answer.startswith("lock-busy"):
                return Tried()
            self.began = answer
            return Tried(began=True) if answer == "ok" else Tried(answer)
        did = self.node.call(now, self.thread, ["coll-step"])
        if did.answer.startswith("forbidden"):
            return Tried(did.answer)
        answer = self.node.call(now, self.thread, ["coll-try", dest]).answer
        return Tried(None if answer == "not-ready" else answer, did.sent)


def number_of(answer):
    return int(answer.split()[1])


def waits(name, answer):
    """A step of this name isn't over with this answer of its call."""
    if name in KINDS or name == "atomic":
        return answer == "not-yet" or answer.startswith("lock-busy")
    if name == "lock":
        return answer == "held"
    return name in WAITING_SYNCS and answer == "not-ready"
