"""A job's text, by docs/FORMATS.md: what a run needs of it. A text that the program would refuse may pass here."""
from contextlib import contextmanager
from dataclasses import dataclass, field

from .atomics import BATCH, BLOCK
from .collectives import COLLECTIVE

HEAD = ("gasnet", "job", "nodes", "credits", "threads", "segment", "last", "resend", "patience", "sieve")
FIRST_CLIENT_INDEX = 128


class Wrong(Exception):
    """A text isn't what it has to be: why, in one line."""


@contextmanager
def understood(told):
    """Words that can't be read are what these words, which are asked for then, tell."""
    try:
        yield
    except (ValueError, IndexError, KeyError, TypeError) as fault:
        raise Wrong(told()) from fault


@dataclass
class Handler:
    """A handler of the job: its role, the locks that it lists, and the words of its actions."""

    role: str
    locks: set
    body: list


@dataclass
class Job:
    """The settings of a job, its handlers by their indexes, its scripts by node and thread, and its schedule."""

    version: int
    number: int
    nodes: int
    credits: int
    threads: int
    segment: int
    last: int
    resend: int
    atomics: bool = False
    collect: tuple = None  # of the area of collectives: where it begins, and the room of a part
    pairs: dict = field(default_factory=dict)
    handlers: dict = field(default_factory=dict)
    scripts: dict = field(default_factory=dict)
    schedule: list = field(default_factory=list)  # (time, the words of the event)

    def credits_of(self, source, target):
        return self.pairs.get((source, target), self.credits)

    def has_handler(self, index, role):
        return index in self.handlers and self.handlers[index].role == role

    def locks_of(self, index):
        return self.handlers[index].locks if index in self.handlers else set()

    def reply_locks(self):
        """The locks that any handler of replies lists."""
        return set().union(*(one.locks for one in self.handlers.values() if one.role == "reply"))


class Lines:
    """The lines of a text, read one after another."""

    def __init__(self, name, text, first=0):
        self.name, self.place = name, first
        self.lines = [line.split(" ") for line in text.split("\n")]

    def wrong(self, wanted):
        return Wrong(f"{self.name}, line {self.place + 1}: {wanted} is wanted")

    def peek(self):
        if self.place >= len(self.lines):
            raise self.wrong("one more line")
        return self.lines[self.place]

    def take(self, *words):
        """The rest of the next line, which begins with these words."""
        line = self.peek()
        if tuple(line[: len(words)]) != words:
            raise self.wrong(f"a line '{' '.join(words)}'")
        self.place += 1
        return line[len(words) :]

    def until_end(self):
        """The lines up to 'end', which is taken too."""
        taken = []
        while self.peek() != ["end"]:
            taken.append(self.take())
        self.take("end")
        return taken



def numbers(words):
    return [int(word) for word in words]


def read_head(lines):
    head = {name: numbers(lines.take(name)) for name in HEAD}
    names = {"version": "gasnet", "number": "job"}
    settings = ("version", "number", "nodes", "credits", "threads", "segment", "last", "resend")
    return Job(**{name: head[names.get(name, name)][0] for name in settings})


def own_handlers(job):
    """Those of remote atomics and of collectives, whose bodies no job has."""
    roles = {BATCH: "request", BLOCK: "reply"} if job.atomics else {}
    roles |= {COLLECTIVE: "request"} if job.collect else {}
    return {index: Handler(role, set(), []) for index, role in roles.items()}


def read_handlers(lines, handlers):
    """The handlers by index, with these: those with 0 get the lowest indexes that are left, once the others have theirs."""
    later = []
    while lines.peek()[0] == "handler":
        index, role, *locks = lines.take("handler")
        handler = Handler(role, set(numbers(locks)), lines.until_end())
        if index == "0":
            later.append(handler)
        else:
            handlers[int(index)] = handler
    for handler in later:
        free = next(index for index in range(FIRST_CLIENT_INDEX, 256) if index not in handlers)
        handlers[free] = handler
    return handlers


def read_job(text, name="the job"):
    """The job of a text, and the number of its lines: other text may stand behind it."""
    lines = Lines(name, text)
    with understood(lambda: f"{name}, line {lines.place}: it is none of a job"):
        return read_parts(lines), lines.place


def read_parts(lines):
    job = read_head(lines)
    while lines.peek()[0] == "pair":
        source, target, credit = numbers(lines.take("pair"))
        job.pairs[source, target] = credit
    job.atomics = lines.peek() == ["atomics"]
    if job.atomics:
        lines.take("atomics")
    if lines.peek()[0] == "collect":
        job.collect = tuple(numbers(lines.take("collect")))
    job.handlers = read_handlers(lines, own_handlers(job))
    while lines.peek()[0] == "script":
        node, thread = numbers(lines.take("script"))
        job.scripts[node, thread] = lines.until_end()
    if lines.peek() == ["schedule"]:
        lines.take("schedule")
        job.schedule = [(int(line[0]), line[1:]) for line in lines.until_end()]
    lines.take("done")
    return job
