"""Jobs whose schedules are made from a number: calls of a mix, and a network that loses, repeats and reorders."""
import random

from .atomics import APPLIED
from .collectives import KINDS, Shape
from .job import read_job
from .plans import read_plan
from .world import World

LOCK = 3  # of handler 130
REPLY_LOCK = 5  # of handler 133
SEGMENT = 65_536
LONGEST = 20_000  # bytes of a transfer: three chunks
SETTLING = 100  # rounds at the end
LONG_SETTLING = 1_000  # where plans have many pieces
RESEND = 40
ID = 7  # of the barrier
SENDS = ("resend", "note", "chunk", "accepted")
AREA = 8_192  # where plans begin and end, and what is shown of it at the end
REGISTERS = 8  # of plans
MOST_PIECES = 65_536  # of the plans of a job
WORDS = range(32_768, 32_768 + 8 * 8, 8)  # of batches
BLOCKS = range(36_864, 36_864 + 64 * 8, 64)
PARTS, ROOM = 45_056, 64  # the area of collectives, and the room of a part

HANDLERS = f"""\
handler 128 request
add 0 a0
reply short 129 a0
end
handler 129 reply
add 1 a0
end
handler 130 request {LOCK}
lock {LOCK}
sum 2
unlock {LOCK}
reply medium 131 p a0
end
handler 131 reply
keep 8192
end
handler 132 request
sum 2
reply long 133 x0102 16384 a0
end
handler 133 reply {REPLY_LOCK}
add 3 1
end
"""


class Drill:
    """A drill that is being made: its world so far, the lines of its schedule, and the datagrams that are on their way."""

    def __init__(self, seed, nodes, credits, loss, duplicates, mix):
        self.draw = random.Random(seed)
        self.loss, self.duplicates = loss, duplicates
        self.mixes = [name for name in MIXES if mix in (name, "all")]
        self.calls = [call for name in self.mixes for call in MIXES[name]]
        self.pieces = 0  # of the plans so far
        self.shapes = []  # of the collectives so far
        self.head = self.settings(nodes, credits) + HANDLERS
        self.world = World(read_job(self.head + "done\n")[0])
        self.lines, self.ways = [], []
        self.notified = [False] * nodes
        self.held = [None] * nodes

    def settings(self, nodes, credits):
        """The lines before the handlers. Plans, atomics and collectives stand in version 2 alone."""
        version = 2 if {"plans", "atomics", "collectives"} & set(self.mixes) else 1
        atomics = "atomics\n" if "atomics" in self.mixes else ""
        collect = f"collect {PARTS} {ROOM}\n" if "collectives" in self.mixes else ""
        return (
            f"gasnet {version}\njob 7\nnodes {nodes}\ncredits {credits}\nthreads 2\nsegment {SEGMENT}\nlast 1000000\n"
            f"resend {RESEND}\npatience 1\nsieve 0 0 0\n{atomics}{collect}"
        )

    # ---- what happens

    def line(self, event):
        """One more line of the schedule. What it sends goes on its way, or is lost, or goes twice."""
        now = len(self.lines)
        answer = self.world.line(str(now + 1), now, event.split(" "))
        self.world.answers.append(answer)
        self.lines.append(f"{now} {event}")
        words, kind, first = answer.split(" "), event.split(" ")[0], event.split(" ")[1]
        if words[0] in SENDS:
            self.send(f"request {first} {words[1]} {words[3]}")
        elif kind == "request" and words[0] in ("ran", "again"):
            self.send(event.replace("request", "reply", 1))
        return answer

    def send(self, way):
        if self.draw.randrange(100) >= self.loss:
            self.ways += [way] * (2 if self.draw.randrange(100) < self.duplicates else 1)

    def round(self):
        """A delivery, where a datagram is on its way, or a tick, or a call."""
        chance, node = self.draw.randrange(10), self.draw.randrange(len(self.notified))
        if chance < 5 and self.ways:
            self.line(self.ways.pop(self.draw.randrange(len(self.ways))))
        elif chance < 7:
            self.line(f"tick {node}")
        else:
            self.draw.choice(self.calls)(self, node)

    # ---- calls

    def peer(self, node):
        return self.draw.choice([other for other in range(len(self.notified)) if other != node])

    def payload(self):
        return "x" + self.draw.randbytes(self.draw.randrange(1, 9)).hex()

    def short(self, node):
        self.line(f"call {node} 0 short {self.peer(node)} 128 {self.draw.randrange(1000)}")

    def medium(self, node):
        self.line(f"call {node} 0 medium {self.peer(node)} 130 {self.payload()} {self.draw.randrange(1000)}")

    def long(self, node):
        place = self.draw.randrange(SEGMENT - 8)
        self.line(f"call {node} 0 long {self.peer(node)} 132 {self.payload()} {place} {self.draw.randrange(1000)}")

    def transfer(self, node):
        name, length = self.draw.choice(("put-nbi-bulk", "get-nbi", "memset-nbi")), self.draw.randrange(LONGEST)
        remote, local = (self.draw.randrange(SEGMENT - LONGEST) for _ in range(2))
        last = f"{length} {local % 256}" if name == "memset-nbi" else f"{local} {length}"
        self.line(f"call {node} 0 {name} {self.peer(node)} {remote} {last}")

    def sync(self, node):
        self.line(f"call {node} 0 try-nbi all")

    def barrier(self, node):
        if self.notified[node]:
            self.notified[node] = self.line(f"call {node} 0 try-barrier {ID} 0") != "ok"
        else:
            self.notified[node] = self.line(f"call {node} 0 notify {ID} 0") == "ok"

    def lock(self, node):
        """The second thread of the node takes a lock, or gives its lock back."""
        if self.held[node] is not None:
            self.line(f"call {node} 1 unlock {self.held[node]}")
            self.held[node] = None
            return
        lock = self.draw.choice((LOCK, REPLY_LOCK))
        if self.line(f"call {node} 1 lock {lock}") == "taken":
            self.held[node] = lock

    # ---- plans

    def live(self, node):
        """The registers of a node whose transfers aren't synchronised."""
        transfers = self.world.nodes[node].transfers
        return [register for register in range(REGISTERS) if transfers.members(transfers.handle(register))]

    def plan(self, node):
        """A transfer of many pieces begins, where a register is free and the job may have so many; else some are synchronised."""
        free = sorted(set(range(REGISTERS)) - set(self.live(node)))
        name, to = self.draw.choice(("put-s", "get-s", "put-v", "get-v")), self.draw.randrange(len(self.notified))
        words = self.strided(name[0] == "p") if name[-1] == "s" else self.indexed(name[0] == "p")
        pieces = len(read_plan(name, [0, 0, to, *words]).pieces)
        if not free or self.pieces + pieces > MOST_PIECES:
            return self.sync_plans(node)
        self.pieces += pieces
        start = self.draw.randrange(pieces + 1) if self.draw.randrange(4) == 0 else 0
        self.line(" ".join(map(str, ("call", node, 0, name, self.draw.choice(free), start, to, *words))))

    def strided(self, is_put):
        """The numbers of a strided transfer: up to three levels, or one of many single bytes. What is written has no byte twice."""
        is_long = self.draw.randrange(8) == 0
        length, count = (1, 1) if is_long else (self.draw.randrange(24), self.draw.randrange(4))
        counts = [self.draw.randrange(200, 400)] if is_long else [self.draw.randrange(1, 5) for _ in range(count)]
        sides = [self.strides(length, counts, is_put), self.strides(length, counts, not is_put)]
        levels = [number for level in zip(counts, *(strides for _, strides in sides)) for number in level]
        return [sides[0][0], sides[1][0], length, *levels]

    def strides(self, length, counts, is_written):
        """The first byte of a side, and how far apart the bytes of each level are."""
        extent, strides = length, []
        for count in reversed(counts):
            stride = extent + self.draw.randrange(8) if is_written else self.draw.randrange(8)
            extent += stride * (count - 1)
            strides.insert(0, stride)
        return self.draw.randrange(AREA - extent), strides

    def indexed(self, is_put):
        """The numbers of an indexed transfer: ranges that are written, each in a place of its own, and ranges that are read."""
        lengths = [self.draw.randrange(65) for _ in range(self.draw.randrange(1, 7))]
        places = self.draw.sample(range(0, AREA, 64), len(lengths))
        written = [number for place, length in zip(places, lengths) for number in (place, length)]
        cuts = sorted(self.draw.randrange(sum(lengths) + 1) for _ in range(self.draw.randrange(6)))
        lengths = [end - start for start, end in zip([0, *cuts], [*cuts, sum(lengths)])]
        read = [number for length in lengths for number in (self.draw.randrange(AREA - length), length)]
        remote, local = (written, read) if is_put else (read, written)
        return [len(remote) // 2, *remote, *local]

    def sync_plans(self, node):
        live = self.live(node) or [0]
        name = self.draw.choice(("try", "try-all", "try-some"))
        registers = live[: 1 if name == "try" else 16]
        self.line(f"call {node} 0 {name} {' '.join(map(str, registers))}")

    def set(self, node):
        self.line(f"call {node} 0 set {self.draw.randrange(AREA - 64)} x{self.draw.randbytes(64).hex()}")

    # ---- batches

    def batch(self, node):
        """Up to three operations on words of any node, which all nodes use."""
        to = self.draw.randrange(len(self.notified))
        operations = [word for _ in range(self.draw.randrange(1, 4)) for word in self.operation(to)]
        words = to, self.draw.choice(BLOCKS), self.number(to), *operations
        self.line(" ".join(map(str, ("call", node, 0, "atomic", *words))))

    def operation(self, to):
        return self.draw.choice(list(APPLIED)), self.draw.choice(WORDS), self.number(to), self.number(to)

    def number(self, to):
        """An operand: small or great, or what a word is now, so that it is what a comparison expects."""
        word = self.world.nodes[to].client.part(self.draw.choice(WORDS), 8)
        return self.draw.choice((0, 1, 5, 2**64 - 1, self.draw.randrange(2**64), int.from_bytes(word, "little")))

    def word(self, node):
        block = self.draw.choice(BLOCKS)
        self.line(f"call {node} 0 word {self.draw.choice((*WORDS, block, block + 8))}")

    # ---- collectives

    def collective(self, node):
        """The next call of a node's collectives: a start, or now and then a needless one; a step; a try."""
        at = self.world.nodes[node].collectives
        if at.started == at.ended or self.draw.randrange(16) == 0:
            shape, source = self.shape(at.started), self.draw.randrange(0, AREA, 8)
            words = "coll-start", shape.kind, shape.root, source, shape.length
        elif self.draw.randrange(3):
            words = ("coll-step",)
        else:
            words = "coll-try", self.draw.randrange(0, AREA, 8)
        self.line(" ".join(map(str, ("call", node, 0, *words))))

    def shape(self, phase):
        """That of a phase, which is drawn as the first node starts it; now and then a node has another one."""
        while len(self.shapes) <= phase:
            self.shapes.append(self.drawn_shape())
        return self.drawn_shape() if self.draw.randrange(16) == 0 else self.shapes[phase]

    def drawn_shape(self):
        shape = Shape(self.draw.choice(KINDS), length=self.draw.randrange(0, ROOM + 1, 8))
        shape.root = self.draw.randrange(len(self.notified)) if shape.has_root else 0
        return shape

    # ---- the job

    def end(self):
        """The locks are given back, and all goes through; then what plans, batches and collectives wrote is shown."""
        for node, lock in enumerate(self.held):
            if lock is not None:
                self.lock(node)
        self.line(f"settle {LONG_SETTLING if 'plans' in self.mixes else SETTLING}")
        for node in range(len(self.notified)):
            if "plans" in self.mixes:
                self.sync_plans(node)
            if {"plans", "collectives"} & set(self.mixes):
                self.line(f"call {node} 0 show 0 {AREA}")
            for place in WORDS if "atomics" in self.mixes else ():
                self.line(f"call {node} 0 word {place}")

    @property
    def text(self):
        return self.head + "schedule\n" + "".join(line + "\n" for line in self.lines) + "end\ndone\n"


MIXES = {
    "messages": (Drill.short, Drill.medium, Drill.long, Drill.lock),
    "transfers": (Drill.transfer, Drill.transfer, Drill.sync),
    "barriers": (Drill.barrier, Drill.barrier),
    "plans": (Drill.plan, Drill.plan, Drill.sync_plans, Drill.set),
    "atomics": (Drill.batch, Drill.batch, Drill.word),
    "collectives": (Drill.collective, Drill.collective, Drill.set),
}


def made_drill(seed, rounds, **settings):
    """The drill of a number."""
    drill = Drill(seed, **settings)
    for _ in range(rounds):
        drill.round()
    drill.end()
    return drill
