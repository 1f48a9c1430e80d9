#!/usr/bin/env python3
"""Writes the job whose schedule has the events of the drill of a seed, by the rules of docs/DRILL.md alone.

    bench/drill_job.py SEED > drill.job

It knows of the nodes what it needs to tell the next number of each pair: which requests are out, which ran, and which chunks are still to go.
"""
import sys
from collections import Counter

NODES = 4
CREDITS = 2
RESEND = 8
ROUNDS = 20_000
RECORDS = 256  # of transfers that a node keeps
SEEDS = 2**64
COUNTED = "accepted chunk resend ran again stale returned late not-yet unsent".split()  # words of answers, in the order of the summary

HEAD = f"""\
gasnet 1
job 7
nodes {NODES}
credits {CREDITS}
threads 1
segment 65536
last {SEEDS - 1}
resend {RESEND}
patience 1
sieve 0 0 0
handler 128 request
add 0 a0
reply short 129 a0
end
handler 129 reply
add 1 a0
end
"""


def draws(number):
    """The numbers that are drawn from a seed."""
    while True:
        number = (number * 6364136223846793005 + 1442695040888963407) % SEEDS
        yield number >> 32


class Nodes:
    """What is known of the nodes: of each pair the numbers accepted, what is out with the time at which it was sent last, and what ran; and the puts of each node."""

    def __init__(self):
        self.accepted = Counter()
        self.out = {}
        self.ran = set()
        self.puts = [[] for _ in range(NODES)]

    def has_credit(self, node, peer):
        return sum(key[:2] == (node, peer) for key in self.out) < CREDITS

    def send(self, node, peer, now):
        self.accepted[node, peer] += 1
        self.out[node, peer, self.accepted[node, peer]] = now
        return self.accepted[node, peer]

    def short(self, node, peer, now):
        if self.has_credit(node, peer):
            self.send(node, peer, now)

    def put(self, node, peer):
        """Those before it are let go where all are done; then it is kept where there is room. Its chunk goes by a tick."""
        if all(put["done"] for put in self.puts[node]):
            self.puts[node] = []
        if len(self.puts[node]) < RECORDS:
            self.puts[node].append({"peer": peer, "number": None, "done": False})

    def tick(self, node, now):
        """The request that was sent earliest is sent again where it is due; else the first chunk goes that can."""
        due = [(sent, key) for key, sent in self.out.items() if key[0] == node and now - sent >= RESEND]
        if due:
            self.out[min(due)[1]] = now
            return
        for put in self.puts[node]:
            if put["number"] is None and self.has_credit(node, put["peer"]):
                put["number"] = self.send(node, put["peer"], now)
                return

    def request(self, node, peer, number):
        if number <= self.accepted[node, peer]:
            self.ran.add((node, peer, number))

    def reply(self, node, peer, number):
        key = (node, peer, number)
        if key not in self.ran or key not in self.out:
            return
        del self.out[key]
        for put in self.puts[node]:
            put["done"] |= (put["peer"], put["number"]) == (peer, number)


def rounds(seed):
    """The lines of each round, and what it does to the nodes."""
    nodes, drawn = Nodes(), draws(seed)
    for time in range(ROUNDS):
        deed, node, step, rest = next(drawn) % 8, next(drawn) % NODES, next(drawn) % 3, next(drawn)
        peer = (node + 1 + step) % NODES
        number = max(1, nodes.accepted[node, peer] - rest % 4)
        if deed < 2:
            yield f"{time} call {node} 0 short {peer} 128 {rest % 1000}"
            nodes.short(node, peer, time)
        elif deed == 2:
            yield f"{time} call {node} 0 try-nbi all"
            yield f"{time} call {node} 0 put-nbi-bulk {peer} {rest % 8 * 4096} 0 4096"
            nodes.put(node, peer)
        elif deed == 3:
            yield f"{time} tick {node}"
            nodes.tick(node, time)
        elif deed < 6:
            yield f"{time} request {node} {peer} {number}"
            nodes.request(node, peer, number)
        else:
            yield f"{time} reply {node} {peer} {number}"
            nodes.reply(node, peer, number)


def events(seed):
    """How many events the drill of a seed has."""
    return sum(1 for _ in rounds(seed))


def text(seed):
    """The text of the job."""
    return (HEAD + "schedule\n" + "".join(f"{line}\n" for line in rounds(seed)) + "end\ndone\n").encode()


if __name__ == "__main__":
    if len(sys.argv) != 2 or not sys.argv[1].isdigit() or int(sys.argv[1]) >= SEEDS:
        sys.exit(__doc__)
    sys.stdout.buffer.write(text(int(sys.argv[1])))
