"""The run of a job's schedule."""
from .job import understood
from .node import Did, Node
from .rows import Row, node_lines, status_line


class World:
    """The nodes of a job, and what happened to them: a row for each line of the schedule, and for what a round does."""

    title = "the run of its schedule"

    def __init__(self, job):
        self.job = job
        self.nodes = [Node(job, me) for me in range(job.nodes)]
        self.rows, self.answers = [], []
        for place, (now, event) in enumerate(job.schedule, 1):
            self.answers.append(self.line(str(place), now, event))

    @property
    def output(self):
        """The lines that the program writes for the run."""
        answers = [f"{place} {answer}" for place, answer in enumerate(self.answers, 1)]
        return answers + node_lines(self.nodes, [node.most for node in self.nodes]) + [status_line(self.nodes)]

    def line(self, place, now, event):
        """The answer to a line of the schedule."""
        with understood(lambda: f"line {place} of the schedule can't be run: {' '.join(event)!r}"):
            return self.settle(place, now, int(event[1])) if event[0] == "settle" else self.event(place, now, event).answer

    def event(self, place, now, event, within=None):
        """An event, as a row."""
        kind, first, *rest = event
        did, got, at = None, None, int(first)
        if kind == "call":
            did = self.nodes[at].call(now, int(rest[0]), rest[1:])
        elif kind == "tick":
            did = self.nodes[at].tick(now)
        else:
            asker, asked, number = int(first), *map(int, rest)
            at = asked if kind == "request" else asker
            did, got = self.deliver(kind, asker, asked, number)
        row = Row(place, now, at, " ".join(event), did.answer, did.sent, did.repeats, got, within)
        self.rows.append(row)
        return row

    def deliver(self, kind, asker, asked, number):
        """What the delivery of a message did, and its key; none where it was never sent."""
        if kind == "request":
            message = self.request(asker, asked, number)
            at = self.nodes[asked]
        else:
            message = self.nodes[asked].replies.get((asker, number))
            at = self.nodes[asker]
        return (at.deliver(message), message.key) if message else (Did("unsent"), None)

    def request(self, asker, asked, number):
        requests = self.nodes[asker].asked.get(asked, [])
        return requests[number - 1].message if number <= len(requests) else None

    # ---- settle

    def settle(self, place, now, rounds):
        """The rounds of a line `settle`; a round in which nothing goes is the last one that does anything."""
        self.rows.append(Row(place, now, None, f"settle {rounds}", "settled", within=place))
        for number in range(1, rounds + 1):
            if not self.round(f"{place}.{number}", now, place):
                break
        return "settled"

    def round(self, place, now, within):
        """A round; whether anything went in it."""
        before = len(self.rows)
        for node in self.nodes:
            did = node.tick(now)
            if did.sent:
                self.rows.append(Row(place, now, node.me, f"tick {node.me}", did.answer, did.sent, did.repeats, None, within))
        for node in self.nodes:
            for to, number in sorted((to, number) for to, requests in node.open.items() for number in requests):
                for kind in ("request", "reply"):
                    self.event(place, now, [kind, str(node.me), str(to), str(number)], within)
        return len(self.rows) > before
