"""The run of traces: what each turn did, in an order in which the turns can go."""
from .datagram import read_datagram, spelling
from .job import understood
from .node import Node
from .rows import Row, node_lines, status_line
from .scripts import Script


class Station:
    """A node with its scripts and its trace."""

    def __init__(self, job, rank, trace):
        self.job, self.rank, self.trace = job, rank, trace
        self.node = Node(job, rank)
        threads = range(job.threads)
        self.scripts = [Script(self.node, thread, job.scripts.get((rank, thread), [])) for thread in threads]
        self.gone = 0  # turns
        self.most = 0
        self.lines = []  # the answers of steps
        self.message, self.refused = self.judged()

    @property
    def next_turn(self):
        return self.trace.turns[self.gone] if self.gone < len(self.trace.turns) else None

    def polls(self, thread):
        return not self.node.client.holds(thread)

    def judged(self):
        """The message that the next turn gets, and why the node refuses what it gets, whatever it did before."""
        got = self.next_turn.got if self.next_turn else None
        read = read_datagram(self.job, got) if got is not None else None
        if not read:
            return None, None if got is None else "bytes"
        return read[0], self.node.refusal(*read)

    def go_on(self):
        self.gone += 1
        self.message, self.refused = self.judged()


class Launch:
    """The nodes of a job by their traces, merged."""

    def __init__(self, job, traces):
        self.job = job
        self.stations = [Station(job, rank, trace) for rank, trace in enumerate(traces)]
        self.rows = []
        self.datagrams = set()  # all that were sent
        self.no_run = None  # the node and the turn at which the traces are no run
        while self.turn():
            pass
        self.ends()

    @property
    def title(self):
        if self.no_run:
            return "traces that are no run: node {}, turn {}".format(*self.no_run)
        return "the turns of its nodes"

    @property
    def output(self):
        """The lines that `launch` and `check` write for the traces."""
        codes = [one.trace.code for one in self.stations]
        if None in codes:
            return ["status 7 spawn-fault"]
        bad = next((rank for rank, code in enumerate(codes) if code > 1), None)
        if bad is not None:
            return [f"status 12 child {bad} {codes[bad]}"]
        if self.no_run:
            return ["status 11 not-a-run {} {}".format(*self.no_run)]
        steps = [line for one in self.stations for line in one.lines]
        nodes = [one.node for one in self.stations]
        return steps + node_lines(nodes, [one.most for one in self.stations]) + [status_line(nodes)]

    # ---- the order

    def turn(self):
        """The next turn, if one is left: that of the lowest time, of those that can go, or else of all."""
        left = [one for one in self.stations if one.next_turn]
        ready = [one for one in left if self.can_go(one)]
        if left and not ready and not self.no_run:
            self.no_run = left[0].rank, left[0].gone + 1
        if left:
            self.go(min(ready or left, key=lambda one: (one.next_turn.time, one.rank)))
        return bool(left)

    def can_go(self, station):
        turn = station.next_turn
        if turn.got is None or station.refused:
            return True
        return station.polls(turn.thread) and turn.got in self.datagrams

    # ---- a turn

    def go(self, station):
        turn, place = station.next_turn, f"{station.rank}:{station.gone + 1}"
        with understood(lambda: f"turn {place} can't be run: a handler or a step has other words than it may have"):
            self.events(station, turn, place)
        station.most = max(station.most, station.node.held)
        station.go_on()

    def events(self, station, turn, place):
        if station.polls(turn.thread):
            if turn.got is not None:
                self.deliver(station, turn, place)
            self.tick(station, turn, place)
        self.step(station, turn, place)

    def row(self, station, turn, place, words, did, **more):
        if did.sent:
            self.datagrams.add(spelling(self.job, did.sent))
        self.rows.append(Row(place, turn.time, station.rank, words, did.answer, did.sent, did.repeats, **more))

    def deliver(self, station, turn, place):
        message = station.message
        if station.refused:
            words = "a datagram" if message else "bytes"
            self.rows.append(Row(place, turn.time, station.rank, words, f"refused {station.refused}"))
            return
        known = turn.got in self.datagrams
        words = " ".join(map(str, message.key)) + ("" if known else ", which no node sent")
        came = {"got": message.key} if known else {"foreign": message}
        self.row(station, turn, place, words, station.node.deliver(message), **came)

    def tick(self, station, turn, place):
        did = station.node.tick(turn.time)
        if did.sent:
            self.row(station, turn, place, "tick", did)

    def step(self, station, turn, place):
        step, tried = station.scripts[turn.thread].attempt(turn.time)
        if tried.ended is None and not tried.began:
            return
        if tried.sent:
            self.datagrams.add(spelling(self.job, tried.sent))
        words = f"thread {turn.thread}: {' '.join(step)}"
        self.rows.append(Row(place, turn.time, station.rank, words, tried.ended or "begins", tried.sent))
        if tried.ended is not None:
            station.lines.append(f"{station.rank} {turn.thread} {tried.ended}")

    # ---- the end

    def ends(self):
        """A row for each thread that waits, and for each node that ended with another status than 0."""
        for station in self.stations:
            time = station.trace.turns[-1].time if station.trace.turns else 0
            for script in station.scripts:
                if script.left:
                    at = f"node {station.rank}, thread {script.thread}"
                    words = f"{at} waits at step {script.done + 1}: {' '.join(script.left[0])}"
                    self.rows.append(Row("end", time, station.rank, words, ""))
            if station.trace.end != "0 ok":
                self.rows.append(Row("end", time, station.rank, f"node {station.rank} ended: {station.trace.end}", ""))
