#!/usr/bin/env python3
"""Makes the jobs of the benchmark.

    bench/make_job.py KIND LINES > big.job

LINES is the number of lines of the schedule. The text goes to standard output. The kinds:

exchanges   two nodes send requests to each other; each request takes one call, one delivery and one delivery of its reply.
            LINES is a multiple of 6 that is at least 36.
settled     node 0 sends 16 requests to node 1, and then a round of `settle` delivers them and their replies, again and again.
            LINES is a multiple of 17.
opening     64 nodes with 16 credits, and no schedule: LINES is 0.
idle-few    ticks of 2 nodes with 1 credit, and nothing out.
idle-many   ticks of 64 nodes with 16 credits, and nothing out.
resend-one  one request of 2 nodes with 1 credit is out, and each tick sends it again.
resend-all  32 requests of 2 nodes with 32 credits are out, and each tick sends one again.
resend-many the same with 45 nodes.
longs       node 0 sends Longs of 8,192 bytes from a place of its segment to the same place of that of node 1; each is delivered, and its reply.
            LINES is a multiple of 3.
mediums     the same with Mediums, whose payload the handler finds where it was delivered.
shorts      the same with Shorts, which have no payload.
puts        node 0 puts 1 MiB of its segment to the same place of that of node 1, in 128 chunks by 8 credits: 128 rounds of `settle` bring them there
            and their replies back, and then the put is synchronised; at most 32 puts, since a schedule has at most 4,096 rounds. LINES is a multiple of 3.
segments    the nodes of `puts`, and no schedule: LINES is 0.
crowd       node 0 begins LINES - 2 puts at once, which have the 4,096 chunks of `puts` together: as many rounds of `settle` bring them there and
            back, and then all are synchronised; LINES - 2 divides 4,096, and is at most 256.
barriers    64 nodes notify a phase of the barrier, 6 rounds of `settle` bring its notes to their nodes, and each node ends it; again and again.
            LINES is a multiple of 129.
notes       as many Shorts from each node to each other one as `barriers` has notes: 64 of them and a round of `settle`, six times for each phase.
            LINES is a multiple of 390.
steps       a script of 4,096 steps for each of up to 16 threads of node 0, each step a Short with 4 arguments, and no schedule. It is for reading alone.
            LINES is a multiple of 4,096.
calls       the same calls as lines of a schedule. It is for reading alone.
"""
import sys
from dataclasses import dataclass

ARGUMENTS = 4
CREDITS = 4
LINES_OF_AN_EXCHANGE = 3
LEAST_REQUESTS = CREDITS + 2  # with fewer ones no node ever holds all of its message buffers
REQUESTS_OF_A_ROUND = 16
RESEND = 10
PAYLOAD = 8192
PLACES = 8192  # of a payload in a segment of `longs`, so that each has its own
PUT = 1 << 20
CHUNKS = PUT // PAYLOAD
CHUNK_CREDITS = 8
PUTS = 4096 // CHUNKS  # a schedule has at most 4,096 rounds
BARRIER_NODES = 64
ROUNDS = 6  # 2^6 nodes
RECORDS = 256  # of operations of a node that aren't synchronised
STEPS = 4096  # of a script
THREADS = 16


@dataclass
class Job:
    """A job: its credits, the events of its schedule with the answer of each, what each node holds at the end and held at most, and how many requests it has."""

    credits: int
    events: list
    held: list
    most: list
    requests: int = 0
    segment: int = 4096
    threads: int = 1
    scripts: str = ""

    def text(self):
        """The text of the job."""
        head = f"""\
gasnet 1
job 7
nodes {len(self.held)}
credits {self.credits}
threads {self.threads}
segment {self.segment}
last 18446744073709551615
resend {RESEND}
patience 100
sieve 0 0 0
handler 128 request
end
"""
        schedule = "".join(f"{event}\n" for event, _ in self.events)
        return (head + self.scripts + (f"schedule\n{schedule}end\n" if schedule else "") + "done\n").encode()

    def output(self):
        """The text that a run of it writes."""
        answers = "".join(f"{number} {answer}\n" for number, (_, answer) in enumerate(self.events, 1))
        ends = "".join(
            f"node {node} held {held} most {most} violations 0\n" for node, (held, most) in enumerate(zip(self.held, self.most))
        )
        return (answers + ends + "status 0 ok\n").encode()


def call(time, node, slot, number):
    """A call that is accepted, with its answer."""
    peer = 1 - node
    return f"{time} call {node} 0 short {peer} 128 {number} {-number} 2147483647 0", f"accepted {peer} {slot} {number}"


def steps(requests):
    """The events at each time of two nodes that send so many requests each, with the answer of each event.

    At time t each node sends its request t, gets the other one's request t - 1, and gets back its own request t - 3. So from time 4 on
    three requests of a node are out before each call and four after it: every call is accepted, and each credit is in use.
    """
    for time in range(1, requests + CREDITS):
        delivered, back = time - 1, time - (CREDITS - 1)
        for node in (0, 1):
            peer = 1 - node
            if time <= requests:
                yield call(time, node, (time - 1) % CREDITS, time)
            if 1 <= delivered <= requests:
                yield f"{time} request {node} {peer} {delivered}", "ran"
            if 1 <= back <= requests:
                yield f"{time} reply {node} {peer} {back}", "returned"


def exchanges(lines):
    """The job in which each delivery is a line."""
    requests, rest = divmod(lines, LINES_OF_AN_EXCHANGE * 2)
    if rest or requests < LEAST_REQUESTS:
        sys.exit(f"{lines} is no multiple of 6 that is at least {LINES_OF_AN_EXCHANGE * 2 * LEAST_REQUESTS}")
    # Every request is back; each node keeps one reply for each slot of the other one. Before that, 4 requests were out too.
    return Job(CREDITS, list(steps(requests)), [CREDITS] * 2, [2 * CREDITS] * 2, 2 * requests)


def settled(lines):
    """The job in which rounds of `settle` deliver."""
    rounds, rest = divmod(lines, REQUESTS_OF_A_ROUND + 1)
    if rest or not rounds:
        sys.exit(f"{lines} is no multiple of {REQUESTS_OF_A_ROUND + 1}")
    events = []
    for time in range(rounds):
        events += [call(time, 0, slot, time * REQUESTS_OF_A_ROUND + slot + 1) for slot in range(REQUESTS_OF_A_ROUND)]
        events.append((f"{time} settle 1", "settled"))
    # Every request is back; node 1 keeps a reply for each slot of node 0.
    return Job(REQUESTS_OF_A_ROUND, events, [0, REQUESTS_OF_A_ROUND], [REQUESTS_OF_A_ROUND] * 2, rounds * REQUESTS_OF_A_ROUND)


def opening(lines):
    """The job without a schedule."""
    if lines:
        sys.exit(f"an opening has no line of a schedule, and not {lines}")
    return Job(16, [], [0] * 64, [0] * 64)


def idle(nodes, credits, lines):
    """Ticks of the nodes in turn, where nothing is out."""
    return Job(credits, [(f"{line} tick {line % nodes}", "nothing") for line in range(lines)], [0] * nodes, [0] * nodes)


def resend(nodes, credits, lines):
    """Node 0 sends a request with each credit towards node 1, and then each of its ticks sends again the one that was sent earliest."""
    calls = [call(0, 0, slot, slot + 1) for slot in range(credits)]
    ticks = [
        (f"{(line + 1) * RESEND} tick 0", f"resend 1 {line % credits} {line % credits + 1}") for line in range(lines - credits)
    ]
    held = [credits] + [0] * (nodes - 1)
    return Job(credits, calls + ticks, held, held, credits)


def answered(lines, action):
    """Requests of node 0 to node 1, one after the other: each is called, delivered, and its reply delivered. An action makes a request by its number."""
    requests, rest = divmod(lines, LINES_OF_AN_EXCHANGE)
    if rest or not requests:
        sys.exit(f"{lines} is no multiple of {LINES_OF_AN_EXCHANGE}")
    events = []
    for number in range(1, requests + 1):
        events += [
            (f"{number} call 0 0 {action(number)}", f"accepted 1 0 {number}"),
            (f"{number} request 0 1 {number}", "ran"),
            (f"{number} reply 0 1 {number}", "returned"),
        ]
    return Job(1, events, [0, 1], [1, 1], requests, PLACES * PAYLOAD)


def puts(lines):
    """Puts of node 0 to node 1, one after the other, each from a place of its own to the same place of the other segment."""
    count, rest = divmod(lines, 3)
    if rest or not 1 <= count <= PUTS:
        sys.exit(f"{lines} is no multiple of 3 from 3 to {3 * PUTS}")
    events = []
    for number in range(1, count + 1):
        offset = (number - 1) * PUT
        events += [
            (f"{number} call 0 0 put-nb-bulk 0 1 {offset} {offset} {PUT}", f"handle {number}"),
            (f"{number} settle {CHUNKS}", "settled"),
            (f"{number} call 0 0 try 0", "ok"),
        ]
    # A chunk is back before the next one is sent, so one slot is used.
    return Job(CHUNK_CREDITS, events, [0, 1], [1, 1], count * CHUNKS, PUTS * PUT)


def crowd(lines):
    """Puts that begin one after the other before the first chunk goes, each from a place of its own to the same place of the other segment."""
    count = lines - 2
    if not 1 <= count <= RECORDS or PUTS * CHUNKS % count:
        sys.exit(f"{lines} is no divisor of {PUTS * CHUNKS} up to {RECORDS}, and 2")
    size = PUTS * PUT // count
    events = [
        (f"{number} call 0 0 put-nbi-bulk 1 {(number - 1) * size} {(number - 1) * size} {size}", f"started {number}")
        for number in range(1, count + 1)
    ]
    events += [(f"{lines} settle {PUTS * CHUNKS}", "settled"), (f"{lines} call 0 0 try-nbi all", "ok")]
    return Job(CHUNK_CREDITS, events, [0, 1], [1, 1], PUTS * CHUNKS, PUTS * PUT)


def segments(lines):
    """The nodes of `puts` without a schedule."""
    if lines:
        sys.exit(f"segments have no line of a schedule, and not {lines}")
    return Job(CHUNK_CREDITS, [], [0, 0], [0, 0], 0, PUTS * PUT)


def barriers(lines):
    """Phases of the barrier: in round r each node tells the node 2^r further."""
    phases, rest = divmod(lines, 2 * BARRIER_NODES + 1)
    if rest or not phases:
        sys.exit(f"{lines} is no multiple of {2 * BARRIER_NODES + 1}")
    events = []
    for phase in range(1, phases + 1):
        events += [(f"{phase} call {node} 0 notify {phase} 0", "ok") for node in range(BARRIER_NODES)]
        events.append((f"{phase} settle {ROUNDS}", "settled"))
        events += [(f"{phase} call {node} 0 try-barrier {phase} 0", "ok") for node in range(BARRIER_NODES)]
    return among_all(events, phases)


def notes(lines):
    """As many Shorts between the same nodes."""
    phases, rest = divmod(lines, ROUNDS * (BARRIER_NODES + 1))
    if rest or not phases:
        sys.exit(f"{lines} is no multiple of {ROUNDS * (BARRIER_NODES + 1)}")
    events = []
    for phase in range(1, phases + 1):
        for turn in range(ROUNDS):
            for node in range(BARRIER_NODES):
                to = (node + (1 << turn)) % BARRIER_NODES
                events.append((f"{phase} call {node} 0 short {to} 128", f"accepted {to} 0 {phase}"))
            events.append((f"{phase} settle 1", "settled"))
    return among_all(events, phases)


def asked(lines):
    """A thread of node 0 and a Short that it asks for, for each of so many numbers."""
    threads, rest = divmod(lines, STEPS)
    if rest or not 1 <= threads <= THREADS:
        sys.exit(f"{lines} is no multiple of {STEPS} up to {STEPS * THREADS}")
    return [(number // STEPS, f"short 1 128 {number} {-number} 2147483647 0") for number in range(1, lines + 1)]


def in_scripts(lines):
    """The calls as steps of scripts."""
    actions = [action for _, action in asked(lines)]
    scripts = "".join(
        f"script 0 {thread}\n" + "".join(f"{action}\n" for action in actions[thread * STEPS :][:STEPS]) + "end\n"
        for thread in range(lines // STEPS)
    )
    return Job(CREDITS, [], [0, 0], [0, 0], threads=THREADS, scripts=scripts)


def in_schedule(lines):
    """The calls as lines of a schedule."""
    events = [(f"{number} call 0 {thread % THREADS} {action}", "") for number, (thread, action) in enumerate(asked(lines))]
    return Job(CREDITS, events, [0, 0], [0, 0], threads=THREADS)


def among_all(events, phases):
    """The job of 64 nodes with these events: in each phase each node asks six others, one after the other, and keeps a reply for each of the six that ask it."""
    if phases < 2:
        sys.exit("the first phase alone doesn't fill the buffers")
    return Job(1, events, [ROUNDS] * BARRIER_NODES, [ROUNDS + 1] * BARRIER_NODES, phases * BARRIER_NODES * ROUNDS)


def long_request(number):
    """A Long out of the local segment, to the same place of the target's."""
    offset = number % PLACES * PAYLOAD
    return f"long 1 128 {offset}+{PAYLOAD} {offset}"


def medium_request(number):
    """A Medium out of the local segment."""
    return f"medium 1 128 {number % PLACES * PAYLOAD}+{PAYLOAD}"


KINDS = {
    "exchanges": exchanges,
    "settled": settled,
    "opening": opening,
    "idle-few": lambda lines: idle(2, 1, lines),
    "idle-many": lambda lines: idle(64, 16, lines),
    "resend-one": lambda lines: resend(2, 1, lines),
    "resend-all": lambda lines: resend(2, 32, lines),
    "resend-many": lambda lines: resend(45, 32, lines),
    "longs": lambda lines: answered(lines, long_request),
    "mediums": lambda lines: answered(lines, medium_request),
    "shorts": lambda lines: answered(lines, lambda number: "short 1 128"),
    "puts": puts,
    "segments": segments,
    "crowd": crowd,
    "barriers": barriers,
    "notes": notes,
    "steps": in_scripts,
    "calls": in_schedule,
}

if __name__ == "__main__":
    if len(sys.argv) != 3 or sys.argv[1] not in KINDS or not sys.argv[2].isdigit():
        sys.exit(__doc__)
    sys.stdout.buffer.write(KINDS[sys.argv[1]](int(sys.argv[2])).text())
