"""What the client of a node keeps: its cells, its segment, the locks that are held, and the violations; and what handlers do."""
from .datagram import ACK, GET, GET_REPLY, LONG, MEDIUM, MEMSET, MOST_ARGS, MOST_BYTES, NOTE, PUT, REPLY, SHORT
from .datagram import Message, joined, signed

COMMUNICATES = {"request", "poll", "transfer", "sync", "region", "barrier"}
KINDS = {"short": SHORT, "medium": MEDIUM, "long": LONG, "async": LONG}
LOCKS = 64
HANDLER = "handler"  # the owner of a lock that is no thread
WORD = 8


class Client:
    def __init__(self, job, me):
        self.job, self.me = job, me
        self.cells = [0] * 256
        self.segment = bytearray(job.segment)
        self.locks = []  # (lock, owner), in the order of locking
        self.violations = []  # (context, rule)

    # ---- numbers and bytes

    def value(self, word, args=()):
        if word[0] == "c":
            return self.cells[int(word[1:])]
        if word[0] == "a":
            place = int(word[1:])
            return args[place] if place < len(args) else 0
        return int(word)

    def inside(self, offset, length):
        return offset + length <= self.job.segment

    def part(self, offset, length):
        return bytes(self.segment[offset : offset + length])

    def write(self, offset, data):
        self.segment[offset : offset + len(data)] = data

    def land(self, message):
        if message.is_long:
            self.write(message.offset, message.payload)

    # ---- locks

    def holds(self, owner):
        return any(one == owner for _, one in self.locks)

    def blocked(self, listed):
        """The smallest of these locks that a thread holds."""
        return min((lock for lock, owner in self.locks if owner != HANDLER and lock in listed), default=None)

    def lock(self, owner, lock, listed=None):
        """Takes a lock; `listed` has those that a handler may take."""
        if lock >= LOCKS or (listed is not None and lock not in listed):
            return self.lock_fault(owner, "bad-index" if lock >= LOCKS else "not-listed")
        holder = [one for held, one in self.locks if held == lock]
        if holder:
            return self.lock_fault(owner, "recursive") if holder == [owner] else "held"
        self.locks.append((lock, owner))
        return "taken"

    def unlock(self, owner, lock):
        own = [held for held, one in self.locks if one == owner]
        if lock >= LOCKS or lock not in own:
            return self.lock_fault(owner, "bad-index" if lock >= LOCKS else "not-held")
        if own[-1] != lock:
            return self.lock_fault(owner, "out-of-order")
        self.locks.remove((lock, owner))
        return "freed"

    def lock_fault(self, owner, why):
        if owner != HANDLER:
            self.violations.append((f"thread {owner}", why))
        return f"lock-fault {why}"

    # ---- rules

    def forbidden(self, thread, kind):
        """The answer to a thread's call that the rule table forbids; it is noted."""
        rule = None
        if kind in ("reply", "source"):
            rule = "no-token"
        elif kind in COMMUNICATES and self.holds(thread):
            rule = "under-lock"
        if rule:
            self.violations.append((f"thread {thread}", rule))
        return rule and f"forbidden {rule}"

    # ---- the segment, by calls

    def on_segment(self, words):
        """The answer to a call on the own segment."""
        name, offset, *rest = words[0], int(words[1]), *words[2:]
        if name == "set":
            return self.set(offset, bytes.fromhex(rest[0][1:]))
        if name in ("word", "set-word"):
            return self.word(offset, *map(int, rest))
        length = int(rest[0])
        if not self.inside(offset, length):
            return "outside"
        if name == "show":
            return f"bytes {self.part(offset, length).hex() or '-'}"
        self.write(offset, bytes([int(rest[1])]) * length)
        return "ok"

    def set(self, offset, data):
        if not self.inside(offset, len(data)):
            return "outside"
        self.write(offset, data)
        return "ok"

    def word(self, offset, number=None):
        if not self.inside(offset, WORD) or offset % WORD:
            return "unaligned" if self.inside(offset, WORD) else "outside"
        if number is None:
            return f"word {int.from_bytes(self.part(offset, WORD), 'little')}"
        self.write(offset, number.to_bytes(WORD, "little"))
        return "ok"


class HandlerRun:
    """The run of a client's handler for a message: its actions, one after another."""

    def __init__(self, client, message, role):
        self.client, self.message, self.role = client, message, role
        self.listed = client.job.locks_of(message.handler)
        self.reply = None

    def run(self):
        for action in self.client.job.handlers[self.message.handler].body:
            self.act(*action)
        self.judge("return")
        self.client.locks = [one for one in self.client.locks if one[1] != HANDLER]
        return self.reply

    def value(self, word):
        return self.client.value(word, self.message.args)

    def judge(self, kind):
        """Whether the rule table allows a call of this kind; else it is noted."""
        rule = self.broken_rule(kind)
        if rule:
            self.client.violations.append((self.role, rule))
        return not rule

    def broken_rule(self, kind):
        holds = self.client.holds(HANDLER)
        if kind in COMMUNICATES:
            return "in-handler"
        if kind == "reply" and self.role == "reply":
            return "reply-in-reply"
        if kind == "reply" and self.reply:
            return "second-reply"
        if kind == "reply" and holds:
            return "reply-under-lock"
        return "lock-held-at-return" if kind == "return" and holds else None

    def payload(self):
        """The payload as an action finds it: of a Long the bytes at its place."""
        message = self.message
        return self.client.part(message.offset, len(message.payload)) if message.is_long else message.payload

    def act(self, name, *words):
        client = self.client
        if name == "add":
            client.cells[int(words[0])] = signed(client.cells[int(words[0])] + self.value(words[1]))
        elif name == "set-cell":
            client.cells[int(words[0])] = self.value(words[1])
        elif name == "source":
            client.cells[int(words[0])] = self.message.source
        elif name == "sum":
            client.cells[int(words[0])] = signed(client.cells[int(words[0])] + sum(self.payload()))
        elif name == "keep":
            self.keep(int(words[0]))
        elif name in ("lock", "unlock"):
            self.lock(name, int(words[0]))
        elif name == "attempt":
            self.judge(words[0])
        else:
            self.ask_reply(*words)

    def keep(self, offset):
        if not self.message.is_long and self.client.inside(offset, len(self.message.payload)):
            self.client.write(offset, self.message.payload)

    def lock(self, name, lock):
        answer = self.client.lock(HANDLER, lock, self.listed) if name == "lock" else self.client.unlock(HANDLER, lock)
        if answer.startswith("lock-fault"):
            self.client.violations.append((self.role, answer.split()[1]))

    def ask_reply(self, category, handler, *words):
        words, payload, offset = list(words), b"", 0
        if category != "short":
            payload = self.payload_of(words.pop(0))
        if category == "long":
            offset = int(words.pop(0))
        if payload is None or not self.judge("reply"):
            return
        args = [self.value(word) for word in words]
        good = self.client.job.has_handler(int(handler), "reply") and len(args) <= MOST_ARGS and len(payload) <= MOST_BYTES
        if good and (category != "long" or self.client.inside(offset, len(payload))):
            self.reply = Message(KINDS[category] + REPLY, int(handler), args, payload, offset)

    def payload_of(self, word):
        """The bytes of a payload; None where its range passes the end of the segment."""
        if word == "p":
            return self.payload()
        return payload_in(self.client, word)


def payload_in(client, word):
    if word[0] == "x":
        return bytes.fromhex(word[1:])
    offset, length = map(int, word.split("+"))
    return client.part(offset, length) if client.inside(offset, length) else None


def run_library(node, message):
    """What a handler of the library does, after the payload landed; its reply, if it isn't an Ack."""
    if message.handler == GET:
        remote, length, local = joined(*message.args[:2]), message.args[2], joined(*message.args[3:])
        return Message(LONG + REPLY, GET_REPLY, [], node.client.part(remote, length), local)
    if message.handler == MEMSET:
        node.client.write(joined(*message.args[:2]), bytes([message.args[3]]) * message.args[2])
    if message.handler == NOTE:
        node.hear(message.args)
    return None


def library_fault(job, message):
    """Why a message for a handler of the library is refused."""
    short, args, inside = message.kind == SHORT, message.args, job.segment
    kinds = {PUT: message.kind == LONG, GET: short, MEMSET: short, NOTE: short, GET_REPLY: message.kind == LONG + REPLY}
    if not kinds.get(message.handler, False):
        return "handler"
    if message.handler == GET:
        good = len(args) == 5 and 0 <= args[2] <= MOST_BYTES
        good = good and max(joined(*args[:2]), joined(*args[3:])) + args[2] <= inside
        return None if good else "args"
    if message.handler == MEMSET:
        good = len(args) == 4 and 0 <= args[2] <= MOST_BYTES and 0 <= args[3] <= 255
        return None if good and joined(*args[:2]) + args[2] <= inside else "args"
    return "args" if message.handler != NOTE and args else None


def acknowledged(reply):
    """The reply of a run: an Ack where the handler sent none."""
    return reply or Message(ACK)
