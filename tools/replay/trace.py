"""What the nodes of a job wrote: their traces, and how they ended."""
import re
from dataclasses import dataclass, field

from .job import Lines, understood

@dataclass
class Turn:
    thread: int
    time: int
    got: bytes = None


@dataclass
class Trace:
    """The turns of a node, and its end: a status, or what else is known of it."""

    turns: list = field(default_factory=list)
    end: str = "no output"

    @property
    def code(self):
        """The status with which the node ended; None where it didn't end by itself, or nothing is known of it."""
        found = re.match(r"(?:exit status: )?(\d+)", self.end)
        return int(found[1]) if found else None


def read_output(job, rank, lines):
    """The trace of a node, and the line of its status behind it."""
    with understood(lambda: f"{lines.name}, line {lines.place}: it is none of a trace"):
        return read_lines(job, rank, lines)


def read_lines(job, rank, lines):
    for word, value in (("trace", job.version), ("job", job.number), ("rank", rank)):
        lines.take(word, str(value))
    trace = Trace()
    while lines.peek() != ["end"]:
        thread, time, got = lines.take("turn")
        if int(thread) >= job.threads:
            raise ValueError(thread)
        trace.turns.append(Turn(int(thread), int(time), None if got == "-" else bytes.fromhex(got[1:])))
    lines.take("end")
    trace.end = " ".join(lines.take("status"))
    return trace


def read_outputs(job, text, name, first=0):
    """The outputs of all nodes of a job, one behind the other."""
    lines = Lines(name, text)
    lines.place = first
    return [read_output(job, rank, lines) for rank in range(job.nodes)]


def read_folder(job, folder):
    """The outputs that `launch` kept in a folder (GASNET_KEEP)."""
    return [kept_output(job, rank, folder) for rank in range(job.nodes)]


def kept_output(job, rank, folder):
    path, end = folder / f"{rank}.out", folder / f"{rank}.end"
    text = path.read_text(encoding="ascii") if path.exists() else ""
    if text.startswith("trace "):
        return read_output(job, rank, Lines(str(path), text))
    known = end.read_text(encoding="ascii").strip() if end.exists() else "no output"
    return Trace(end=text.strip().removeprefix("status ") or known)
