"""The transfers of a node: its operations by chunks, their handles in registers, and the regions of its threads."""
from dataclasses import dataclass, field

from .datagram import GET, LONG, MEMSET, MOST_BYTES, PUT, SHORT, Message, halves

MOST_STANDING = 256
LAST_NUMBER = 2**64 - 1


@dataclass
class Transfer:
    """A put, a get or a memset, which may begin an operation."""

    kind: str
    to: int
    remote: int
    local: int
    length: int
    byte: int = 0


@dataclass
class Operation:
    number: int
    thread: int
    transfer: Transfer
    mode: str  # "explicit", "implicit" or "region"
    region: int = None
    issued: int = 0  # chunks
    out: set = field(default_factory=set)  # the numbers of the requests that aren't back
    synced: bool = False

    @property
    def has_next(self):
        return self.issued * MOST_BYTES < self.transfer.length

    @property
    def is_complete(self):
        return not self.has_next and not self.out

    def is_of(self, which):
        return which == "all" or (which == "gets") == (self.transfer.kind == "get")


class Transfers:
    def __init__(self, job):
        self.job = job
        self.begun = 0
        self.standing = []  # the operations that aren't synchronised, in order
        self.registers = {}  # the handles; 0 is invalid
        self.regions = {}  # of each thread that has begun one: its name, or 0

    # ---- beginnings

    def fault(self, transfer):
        if transfer.to >= self.job.nodes:
            return "node"
        if transfer.kind != "memset" and transfer.local + transfer.length > self.job.segment:
            return "source"
        return "offset" if transfer.remote + transfer.length > self.job.segment else None

    def begin(self, thread, transfer, mode):
        """The number of the new operation; None where there are too many."""
        if len(self.standing) >= MOST_STANDING or self.begun == LAST_NUMBER:
            return None
        self.begun += 1
        operation = Operation(self.begun, thread, transfer, mode)
        if mode == "region":
            operation.region = self.regions[thread] = self.regions[thread] or self.begun
        self.standing.append(operation)
        return self.begun

    # ---- chunks

    def next_operation(self, can_ask):
        return next((one for one in self.standing if one.has_next and can_ask(one.transfer.to)), None)

    def is_unissued(self, number):
        return any(one.number == number and one.has_next for one in self.standing)

    def back(self, source, number):
        for operation in self.standing:
            if operation.transfer.to == source:
                operation.out.discard(number)

    # ---- synchronisation

    def members(self, handle):
        """The operations of a handle that aren't synchronised: those of the region of that name, or else that of the number."""
        region = [one for one in self.standing if one.region == handle]
        return region or [one for one in self.standing if one.number == handle]

    def handle(self, register):
        return self.registers.get(register, 0)

    def fault_of(self, thread, handles):
        for members in (self.members(handle) for handle in handles if handle):
            if not members:
                return "bad-handle"
            if any(one.thread != thread for one in members):
                return "not-yours"
        return None

    def unready(self, operations, exhausted):
        nodes = [one.transfer.to for one in operations if one.has_next and exhausted(one.transfer.to)]
        return f"worn-out {min(nodes)}" if nodes else "not-ready"

    def sync_operations(self, operations, exhausted):
        if not all(one.is_complete for one in operations):
            return self.unready(operations, exhausted)
        self.leave(operations)
        return "ok"

    def leave(self, operations):
        gone = {one.number for one in operations}
        self.standing = [one for one in self.standing if one.number not in gone]

    def members_of(self, handles):
        return [one for handle in handles if handle for one in self.members(handle)]

    def sync(self, thread, handles, exhausted):
        return self.fault_of(thread, handles) or self.sync_operations(self.members_of(handles), exhausted)

    def sync_some(self, thread, registers, exhausted):
        handles = [self.handle(register) for register in registers]
        fault = self.fault_of(thread, handles)
        if fault:
            return fault
        whole = [handle for handle in handles if handle and all(one.is_complete for one in self.members(handle))]
        if any(handles) and not whole:
            return self.unready(self.members_of(handles), exhausted)
        self.leave(self.members_of(whole))
        self.invalidate([register for register, handle in zip(registers, handles) if handle in whole])
        return "ok"

    def invalidate(self, registers):
        for register in registers:
            self.registers[register] = 0

    def implicit(self, thread, which):
        return [one for one in self.standing if one.mode == "implicit" and one.thread == thread and one.is_of(which)]

    def issued(self, register):
        handle = self.handle(register)
        members = self.members(handle)
        if handle and not members:
            return "bad-handle"
        return "not-ready" if handle and any(one.has_next for one in members) else "issued"


def chunk(operation, segment):
    """The request for the next chunk of an operation, with the bytes that its source has now."""
    transfer, start = operation.transfer, operation.issued * MOST_BYTES
    length = min(MOST_BYTES, transfer.length - start)
    remote, local = transfer.remote + start, transfer.local + start
    if transfer.kind == "put":
        return Message(LONG, PUT, [], bytes(segment[local : local + length]), remote)
    if transfer.kind == "get":
        return Message(SHORT, GET, [*halves(remote), length, *halves(local)])
    return Message(SHORT, MEMSET, [*halves(remote), length, transfer.byte])
