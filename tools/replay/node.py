"""A node of a job: what it does with calls, deliveries and ticks."""
from dataclasses import dataclass

from . import collectives
from .atomics import BATCH, batch_request, serve
from .barrier import Barrier, is_note, note_said
from .client import KINDS, Client, HandlerRun, acknowledged, library_fault, payload_in, run_library
from .datagram import ACK, MOST_ARGS, MOST_BYTES, NOTE, Message, signed
from .plans import PLANS, read_plan
from .transfers import Transfer, Transfers, chunk

FIRST_CLIENT_INDEX = 128


@dataclass
class Did:
    """What an event of a node was answered, and the message that it sent, and whether that one had been sent before."""

    answer: str
    sent: Message = None
    repeats: bool = False


@dataclass
class Asked:
    """What a call asks for: the parts of a request, with the word of its payload."""

    category: str
    to: int
    handler: int
    args: list
    payload: str = "x"
    offset: int = 0


@dataclass
class Request:
    """A request that a node made."""

    message: Message
    time: int  # of its last sending


class Node:
    def __init__(self, job, me):
        self.job, self.me = job, me
        self.client = Client(job, me)
        self.transfers = Transfers(job)
        self.barrier = Barrier(job, me)
        self.collectives = collectives.Collectives(self) if job.collect else None
        self.asked = {}  # by peer: all requests, in the order of their numbers
        self.open = {}  # by peer: those that aren't back, by their numbers
        self.ran = {}  # by peer and slot: the greatest number that ran
        self.replies = {}  # by peer and number: the reply
        self.most = 0

    @property
    def held(self):
        return sum(map(len, self.open.values())) + len(self.ran)

    def did(self, done):
        self.most = max(self.most, self.held)
        return done

    # ---- requests

    def open_to(self, peer):
        return self.open.get(peer, {})

    def exhausted(self, to):
        return len(self.asked.get(to, ())) >= self.job.last

    def can_ask(self, to):
        return to != self.me and not self.exhausted(to) and len(self.open_to(to)) < self.job.credits_of(self.me, to)

    def accept(self, now, to, content):
        taken = {request.message.slot for request in self.open_to(to).values()}
        slot = next(slot for slot in range(len(taken) + 1) if slot not in taken)
        requests = self.asked.setdefault(to, [])
        message = content.sent(self.me, to, slot, len(requests) + 1)
        request = Request(message, now)
        requests.append(request)
        self.open.setdefault(to, {})[message.number] = request
        return message

    def request_fault(self, asked):
        """The first part of a request that is bad."""
        job, (length, inside) = self.job, range_of(self.client, asked.payload)
        faults = {
            "node": asked.to >= job.nodes,
            "handler": not job.has_handler(asked.handler, "request"),
            "count": len(asked.args) > MOST_ARGS,
            "payload": length > MOST_BYTES,
            "source": not inside,
            "offset": asked.category in ("long", "async") and asked.offset + length > job.segment,
        }
        return next((name for name, bad in faults.items() if bad), None)

    def ask(self, now, thread, words):
        """A request of a thread, by its words."""
        asked = read_asked(self.client, *words)
        forbidden = self.client.forbidden(thread, "request")
        if forbidden:
            return Did(forbidden)
        fault = self.request_fault(asked)
        if fault:
            return Did(f"bad-arg {fault}")
        payload = payload_in(self.client, asked.payload)
        content = Message(KINDS[asked.category], asked.handler, asked.args, payload, asked.offset)
        if asked.to == self.me:
            return self.ask_itself(content)
        if not self.can_ask(asked.to):
            return Did("worn-out" if self.exhausted(asked.to) else "not-yet")
        message = self.accept(now, asked.to, content)
        return Did(f"accepted {asked.to} {message.slot} {message.number}", message)

    def ask_itself(self, content):
        lock = self.client.blocked(self.job.locks_of(content.handler) | self.job.reply_locks())
        if lock is not None:
            return Did(f"lock-busy {lock}")
        reply = self.run(content.sent(self.me, self.me, 0, 0))
        self.take(reply.sent(self.me, self.me, 0, 0))
        return Did("ran")

    # ---- deliveries

    def refusal(self, message, number_of_job):
        """Why the node refuses a message, whatever it did before."""
        job = self.job
        if number_of_job != job.number:
            return "job"
        if message.target != self.me or message.source >= job.nodes:
            return "receiver" if message.target != self.me else "sender"
        pair = (message.source, self.me) if message.is_request else (self.me, message.source)
        if message.slot >= job.credits_of(*pair):
            return "slot"
        return self.content_fault(message)

    def content_fault(self, message):
        if message.kind == ACK:
            return None
        if message.handler < FIRST_CLIENT_INDEX:
            fault = library_fault(self.job, message)
            if not fault and message.handler == NOTE and not is_note(self.job, message.args):
                fault = "args"
        else:
            handled = self.job.has_handler(message.handler, "request" if message.is_request else "reply")
            fault = None if handled else "handler"
        outside = message.is_long and message.offset + len(message.payload) > self.job.segment
        return fault or ("range" if outside else None)

    def deliver(self, message):
        return self.deliver_request(message) if message.is_request else self.deliver_reply(message)

    def waits(self, message):
        return None if message.kind == ACK else self.client.blocked(self.job.locks_of(message.handler))

    def deliver_request(self, message):
        peer, slot, number = message.source, message.slot, message.number
        greatest = self.ran.get((peer, slot), 0)
        if number == greatest:
            return Did("again", self.replies[peer, number], repeats=True)
        lock = self.waits(message)
        if number < greatest or lock is not None:
            return Did("stale" if number < greatest else f"deferred {lock}")
        reply = self.run(message).sent(self.me, peer, slot, number)
        self.ran[peer, slot] = number
        self.replies[peer, number] = reply
        return self.did(Did("ran", reply))

    def deliver_reply(self, message):
        request = self.open_to(message.source).get(message.number)
        if not request or request.message.slot != message.slot:
            return Did("late")
        lock = self.waits(message)
        if lock is not None:
            return Did(f"deferred {lock}")
        self.take(message)
        del self.open[message.source][message.number]
        self.transfers.back(message.source, message.number)
        return Did("returned")

    def run(self, message):
        """The run of a request: its payload lands, and its handler runs. The reply is given back."""
        self.client.land(message)
        if message.handler < FIRST_CLIENT_INDEX:
            return acknowledged(run_library(self, message))
        if message.handler == BATCH and self.job.atomics:
            return acknowledged(serve(self.client, message))
        if message.handler == collectives.COLLECTIVE and self.job.collect:
            return acknowledged(collectives.serve(self.client, message))
        return acknowledged(HandlerRun(self.client, message, "request").run())

    def take(self, message):
        """The run of a reply. An Ack runs no handler."""
        self.client.land(message)
        if message.kind != ACK and message.handler >= FIRST_CLIENT_INDEX:
            HandlerRun(self.client, message, "reply").run()

    def hear(self, args):
        self.barrier.hear(*note_said(args))

    # ---- ticks

    def tick(self, now):
        due = [one for requests in self.open.values() for one in requests.values() if one.time + self.job.resend <= now]
        if due:
            return self.send_again(now, min(due, key=lambda one: (one.time, one.message.target, one.message.slot)))
        note = self.barrier.next_note(self.can_ask)
        if note:
            return self.did(self.send_note(now, *note))
        operation = self.transfers.next_operation(self.can_ask)
        return self.did(self.send_chunk(now, operation)) if operation else Did("nothing")

    def send_again(self, now, request):
        request.time, message = now, request.message
        return Did(f"resend {message.target} {message.slot} {message.number}", message, repeats=True)

    def send_note(self, now, phase, to):
        message = self.accept(now, to, self.barrier.note(phase))
        self.barrier.sent.add((phase, to))
        return Did(f"note {to} {message.slot} {message.number}", message)

    def send_chunk(self, now, operation):
        to = operation.transfer.to
        message = self.accept(now, to, chunk(operation, self.client.segment))
        operation.issued += 1
        operation.out.add(message.number)
        return Did(f"chunk {to} {message.slot} {message.number}", message)

    # ---- calls

    def call(self, now, thread, words):
        """A call of a thread, by its words."""
        if words[0] == "atomic":
            words = batch_request(*words[1:])
        if words[0] in KINDS:
            return self.did(self.ask(now, thread, words))
        if words[0] in collectives.NAMES:
            return self.did(Did(*self.collectives.call(now, thread, words)))
        return self.did(Did(self.local_call(thread, words)))

    def local_call(self, thread, words):
        name, client = words[0], self.client
        if name in ("lock", "unlock"):
            return getattr(client, name)(thread, int(words[1]))
        if name in ("poll", "attempt"):
            return client.forbidden(thread, words[-1]) or ("ok" if name == "poll" else "allowed")
        if name == "cell":
            return f"cell {client.cells[int(words[1])]}"
        if name == "set-cell":
            client.cells[int(words[1])] = client.value(words[2])
            return "ok"
        if name in ("show", "set", "fill", "word", "set-word"):
            return client.on_segment(words)
        if name in ("notify", "try-barrier"):
            return client.forbidden(thread, "barrier") or self.on_barrier(name, signed(int(words[1])), int(words[2]))
        return self.on_transfers(thread, words)

    def on_barrier(self, name, identifier, flags):
        if name == "notify":
            return self.barrier.notify(identifier, flags)
        return self.barrier.attempt(identifier, flags, self.exhausted)

    def on_transfers(self, thread, words):
        name, numbers = words[0], words[1:]
        if name in BEGINNINGS:
            return self.begin(thread, BEGINNINGS[name], list(map(int, numbers)))
        if name in PLANS:
            return self.client.forbidden(thread, "region") or self.begin_plan(thread, read_plan(name, numbers))
        if name in ("region-begin", "region-end"):
            return self.client.forbidden(thread, "region") or self.region(thread, name, *map(int, numbers))
        return self.client.forbidden(thread, "sync") or self.sync(thread, name, numbers)

    def begin(self, thread, form, numbers):
        """The beginning of a transfer, by its numbers; the form says its kind, and whether it has a register."""
        kind, mode = form
        register = numbers.pop(0) if mode == "register" else None
        to, remote, *rest = numbers
        transfer = Transfer(kind, to, remote, 0, *rest) if kind == "memset" else Transfer(kind, to, remote, *rest)
        answer = self.client.forbidden(thread, "transfer") or self.begin_transfer(thread, transfer, mode)
        if register is not None and answer.split()[0] in ("handle", "done"):
            self.transfers.registers[register] = int(answer.split()[1]) if answer != "done" else 0
        return answer

    def begin_transfer(self, thread, transfer, mode):
        fault = self.transfers.fault(transfer)
        if fault:
            return f"bad-arg {fault}"
        if transfer.length == 0 or transfer.to == self.me:
            self.transfer_here(transfer)
            return "done"
        implicit = "region" if thread in self.transfers.regions else "implicit"
        number = self.transfers.begin(thread, transfer, implicit if mode == "implicit" else "explicit")
        return "too-many" if number is None else f"{'started' if mode == 'implicit' else 'handle'} {number}"

    def begin_plan(self, thread, plan):
        """The beginning of the pieces of a plan, in a region of their own."""
        if self.region(thread, "region-begin") == "nested":
            return "nested"
        following = self.begin_pieces(thread, plan)
        self.region(thread, "region-end", plan.register)
        if following == len(plan.pieces):
            return "whole"
        return "too-many" if following == plan.start else f"part {following}"

    def begin_pieces(self, thread, plan):
        """The first piece that wasn't begun, for want of room."""
        for number in range(plan.start, len(plan.pieces)):
            if self.begin_transfer(thread, plan.transfer(number), "implicit") == "too-many":
                return number
        return len(plan.pieces)

    def transfer_here(self, transfer):
        client, length = self.client, transfer.length
        if transfer.kind == "put":
            client.write(transfer.remote, client.part(transfer.local, length))
        elif transfer.kind == "get":
            client.write(transfer.local, client.part(transfer.remote, length))
        else:
            client.write(transfer.remote, bytes([transfer.byte]) * length)

    def region(self, thread, name, register=None):
        regions = self.transfers.regions
        if name == "region-begin":
            if thread in regions:
                return "nested"
            regions[thread] = 0
            return "ok"
        if thread not in regions:
            return "no-region"
        handle = self.transfers.registers[register] = regions.pop(thread)
        return f"handle {handle}" if handle else "done"

    def sync(self, thread, name, words):
        transfers = self.transfers
        if name == "try-nbi":
            if thread in transfers.regions:
                return "in-region"
            return transfers.sync_operations(transfers.implicit(thread, words[0]), self.exhausted)
        registers = list(map(int, words))
        if name == "issued":
            return transfers.issued(*registers)
        if name == "try-some":
            return transfers.sync_some(thread, registers, self.exhausted)
        answer = transfers.sync(thread, [transfers.handle(register) for register in registers], self.exhausted)
        if name == "try-all" and answer == "ok":
            transfers.invalidate(registers)
        return answer


# Calls that begin a transfer: its kind, and how it is heard of again.
BEGINNINGS = {
    "put-nb-bulk": ("put", "register"),
    "get-nb": ("get", "register"),
    "memset-nb": ("memset", "register"),
    "put-nbi-bulk": ("put", "implicit"),
    "get-nbi": ("get", "implicit"),
    "memset-nbi": ("memset", "implicit"),
    "put": ("put", "handle"),
    "get": ("get", "handle"),
    "memset": ("memset", "handle"),
}


def read_asked(client, category, to, handler, *words):
    words = list(words)
    payload = "x" if category == "short" else words.pop(0)
    offset = int(words.pop(0)) if category in ("long", "async") else 0
    return Asked(category, int(to), int(handler), [client.value(word) for word in words], payload, offset)


def range_of(client, word):
    """The length of a payload, and whether it is inside the own segment."""
    if word[0] == "x":
        return len(word[1:]) // 2, True
    offset, length = map(int, word.split("+"))
    return length, client.inside(offset, length)
