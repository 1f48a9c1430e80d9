"""The states of a request and of its slots: as data, as pictures, and as they are met in runs."""
from dataclasses import dataclass, field

from .shapes import LINE, PAD, Shapes, widest

BETWEEN, HEAD = 40, 30  # of two machines, and of a machine's name


@dataclass
class Step:
    """What an event does in a state: its answer, and in words why."""

    event: str  # call, tick, request or reply: whose request or reply is delivered
    answer: str
    words: str
    to: str = ""  # another state


@dataclass
class State:
    name: str
    about: str
    steps: list = field(default_factory=list)

    def lines(self):
        stays = [f"{step.answer} ({step.event}): {step.words}" for step in self.steps if not step.to]
        return [self.name, self.about, *stays]


@dataclass
class Machine:
    """States under one another: a step goes to a neighbour or stays."""

    title: str
    states: list

    def state(self, name):
        return next(state for state in self.states if state.name == name)

    def after(self, name, event, answer):
        """The state behind a step, or None where none is drawn."""
        for step in self.state(name).steps:
            if (step.event, step.answer) == (event, answer):
                return step.to or name
        return None

    def drawn(self):
        return {(state.name, step.event, step.answer) for state in self.states for step in state.steps}


REQUEST = Machine(
    "A request of node i to node j",
    [
        State("not accepted", "it has no number", [
            Step("call", "accepted", "a credit is free", "open"),
            Step("tick", "chunk", "of a transfer", "open"),
            Step("tick", "note", "of the barrier", "open"),
            Step("call", "not-yet", "all credits of the pair are outstanding"),
            Step("request", "unsent", "there is no such message"),
            Step("reply", "unsent", "there is no such message"),
        ]),
        State("open", "sent, and not run yet", [
            Step("request", "ran", "its handler runs at j", "run"),
            Step("tick", "resend", "it is due: a retransmission"),
            Step("request", "deferred", "a thread of j holds a lock of its handler"),
            Step("reply", "unsent", "there is no reply yet"),
        ]),
        State("run", "open still: its reply is kept at j", [
            Step("reply", "returned", "the reply's handler runs at i", "back"),
            Step("tick", "resend", "it is due: a retransmission"),
            Step("request", "again", "a duplicate: the kept reply goes again"),
            Step("reply", "deferred", "a thread of i holds a lock of its handler"),
        ]),
        State("back", "the credit is returned", [
            Step("reply", "late", "a duplicate: nothing runs"),
            Step("request", "again", "a duplicate: the kept reply goes again"),
            Step("request", "stale", "a duplicate, behind a later request of its slot"),
        ]),
    ],
)  # fmt: skip

REQUESTER = Machine(
    "A slot at node i, the requester",
    [
        State("free", "its credit is free", [
            Step("call", "accepted", "a call's request", "taken"),
            Step("tick", "chunk", "of a transfer", "taken"),
            Step("tick", "note", "of the barrier", "taken"),
            Step("reply", "late", "the reply to an earlier request: nothing runs"),
        ]),
        State("taken", "it keeps the request with its number", [
            Step("reply", "returned", "the reply to this number", "free"),
            Step("tick", "resend", "the request is due, and goes again as it was"),
            Step("reply", "deferred", "a thread holds a lock of the reply's handler"),
            Step("reply", "late", "the reply to an earlier request: nothing runs"),
        ]),
    ],
)  # fmt: skip

RESPONDER = Machine(
    "The slot of the same number at node j, the responder",
    [
        State("empty", "no request of the slot ran yet", [
            Step("request", "ran", "the handler's reply, or an Ack", "kept"),
            Step("request", "deferred", "a thread holds a lock of the handler"),
        ]),
        State("kept", "it keeps the reply to the last request that ran in it", [
            Step("request", "ran", "a greater number: its reply takes the place"),
            Step("request", "again", "the same number: the kept reply goes again"),
            Step("request", "stale", "a smaller number: nothing runs"),
            Step("request", "deferred", "a greater number, and a lock is held"),
        ]),
    ],
)  # fmt: skip

MACHINES = {"request": REQUEST, "requester": REQUESTER, "responder": RESPONDER}


# ---- pictures


def moves(machine, place):
    """The lines of the steps from a state to the next one, and of those back."""
    here, there = machine.states[place : place + 2]
    forth, back = (
        [f"{step.answer} ({step.event}): {step.words}" for step in one.steps if step.to == other.name]
        for one, other in ((here, there), (there, here))
    )
    return forth, back


def widths(machine):
    """The width of a machine's boxes, and how far the steps back stand to the right."""
    pairs = [moves(machine, place) for place in range(len(machine.states) - 1)]
    box = max(widest(state.lines()) for state in machine.states)
    right = max(widest(forth) + 2 * PAD for forth, _ in pairs)
    return max([box] + [right + widest(back) + 2 * PAD for _, back in pairs if back]), right


def draw_machine(out, machine, x):
    """Draws a machine from x on, its states under one another; answers the lower edge and the right one."""
    width, right = widths(machine)
    out.text(x, 18, machine.title, "key fill-ink")
    y = HEAD
    for place, state in enumerate(machine.states):
        y += out.box(x, y, width, state.lines())
        if place + 1 < len(machine.states):
            forth, back = moves(machine, place)
            low = y + LINE * max(len(forth), len(back)) + 2 * PAD
            out.arrow(x + PAD, y, x + PAD, low + 4, "request")
            out.label(x + 2 * PAD, y + PAD + 11, forth)
            if back:
                out.arrow(x + right, low, x + right, y - 4, "reply")
                out.label(x + right + PAD, y + PAD + 11, back)
            y = low
    return y + PAD, x + width


def picture(title, machines):
    """The picture of machines, side by side."""
    out, low, x = Shapes(), 0, PAD
    for machine in machines:
        y, right = draw_machine(out, machine, x)
        low, x = max(low, y), right + BETWEEN
    x += PAD - BETWEEN
    out.parts.insert(0, f'<rect x="0" y="0" width="{x:g}" height="{low:g}" class="fill-paper"/>')
    return out.svg(x, low, title)


# ---- what runs meet


class Walk:
    """The steps that the rows of a run take, machine by machine; a step that isn't drawn is a fault."""

    def __init__(self):
        self.at, self.slots, self.kept = {}, {}, {}
        self.met, self.faults = set(), []

    def step(self, kind, key, event, answer):
        machine = MACHINES[kind]
        before = self.at.get((kind, key), machine.states[0].name)
        after = machine.after(before, event, answer)
        if after is None:
            self.faults.append(f"{kind} {key} is {before}, and '{answer}' of a {event} isn't drawn there")
        else:
            self.met.add((kind, before, event, answer))
            self.at[kind, key] = after

    def row(self, row):
        """A row of a run (`replay.rows`): an event, and its answer."""
        event, *words = row.words.split()
        answer, *told = row.answer.split()
        if event in ("call", "tick") and answer in ("accepted", "chunk", "note", "resend"):
            me, (to, slot, number) = int(words[0]), map(int, told)
            self.slots[me, to, number] = slot
            self.step("request", (me, to, number), event, answer)
            self.step("requester", (me, to, slot), event, answer)
        elif event == "call" and answer == "not-yet":
            self.step("request", None, event, answer)
        elif event in ("request", "reply"):
            self.delivery(event, tuple(map(int, words)), answer)

    def delivery(self, event, request, answer):
        self.step("request", request, event, answer)
        if answer != "unsent":
            slot = (*request[:2], self.slots[request])
            self.step("responder" if event == "request" else "requester", slot, event, answer)


def wanted():
    """All steps that are drawn, machine by machine."""
    return {(kind, *step) for kind, machine in MACHINES.items() for step in machine.drawn()}
