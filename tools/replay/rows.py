"""The rows of a picture: what happened at a node, with the message that came and the one that was sent."""
from dataclasses import dataclass


@dataclass
class Row:
    place: str  # where it stands: a line of the schedule, or a turn of a trace
    time: int
    node: int  # None where it is of no single node
    words: str  # what happened
    answer: str
    sent: object = None  # the message
    repeats: bool = False  # it was sent before
    got: tuple = None  # the key of the message that came
    within: str = None  # the line `settle` to which it belongs
    foreign: object = None  # the message that came, where nobody sent it

    @property
    def text(self):
        return f"{self.words}: {self.answer}" if self.answer else self.words


def node_lines(nodes, most):
    """The lines of the nodes at the end of a run, with these greatest numbers of buffers."""
    lines = []
    for node in nodes:
        violations = node.client.violations
        lines.append(f"node {node.me} held {node.held} most {most[node.me]} violations {len(violations)}")
        lines += [f"violation {node.me} {context} {rule}" for context, rule in violations[-64:]]
    return lines


def status_line(nodes):
    return "status 1 violations" if any(node.client.violations for node in nodes) else "status 0 ok"
