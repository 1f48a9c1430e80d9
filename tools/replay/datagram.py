"""Messages and their bytes, by docs/FORMATS.md."""
import struct
from dataclasses import dataclass, field

HEADER = struct.Struct(">4sBBBBQHHHHQQ")
MAGIC = {1: b"GAM1", 2: b"GAM2"}
SHORT, MEDIUM, LONG, ACK = 0, 1, 2, 6  # kinds of requests; a reply's is 3 more
REPLY = 3
PUT, GET, MEMSET, NOTE, GET_REPLY = 64, 65, 66, 67, 68  # the library's handlers
MOST_BYTES = 8192
MOST_ARGS = 16


@dataclass
class Message:
    """A request, a reply or an Ack."""

    kind: int
    handler: int = 0
    args: list = field(default_factory=list)
    payload: bytes = b""
    offset: int = 0
    source: int = 0
    target: int = 0
    slot: int = 0
    number: int = 0

    @property
    def is_request(self):
        return self.kind < REPLY

    @property
    def is_long(self):
        return self.kind in (LONG, LONG + REPLY)

    @property
    def key(self):
        """Which message it is: of a pair, the one that asks and the one that is asked, and by the number of the request."""
        if self.is_request:
            return "request", self.source, self.target, self.number
        return "reply", self.target, self.source, self.number

    @property
    def side(self):
        """1 where it goes to a higher node, else -1."""
        return 1 if self.target > self.source else -1

    @property
    def name(self):
        """What it is called in a picture."""
        library = {PUT: "put", GET: "get", MEMSET: "memset", NOTE: "note"}
        word = library.get(self.handler, "request") if self.is_request else "Ack" if self.kind == ACK else "reply"
        return f"{word} {self.number}"

    def sent(self, source, target, slot, number):
        """The message on its way."""
        return Message(self.kind, self.handler, self.args, self.payload, self.offset, source, target, slot, number)


def halves(number):
    """A number of 64 bits as two arguments."""
    return [signed(number >> 32), signed(number & 0xFFFFFFFF)]


def joined(high, low):
    return (high & 0xFFFFFFFF) << 32 | (low & 0xFFFFFFFF)


def signed(number):
    """A number as its 32 bits tell it, in two's complement."""
    return (number + 2**31) % 2**32 - 2**31


def spelling(job, message):
    """The bytes of a message."""
    head = HEADER.pack(
        MAGIC[job.version], message.kind, message.handler, len(message.args), 0, job.number, message.source, message.target,
        message.slot, len(message.payload), message.number, message.offset,
    )  # fmt: skip
    return head + b"".join(struct.pack(">i", arg) for arg in message.args) + bytes(message.payload)


def read_datagram(job, data):
    """The message of a datagram and its job's number; None where the bytes are no message."""
    if len(data) < HEADER.size:
        return None
    magic, kind, handler, count, reserved, number_of_job, *rest = HEADER.unpack(data[: HEADER.size])
    source, target, slot, length, number, offset = rest
    ack, short = kind == ACK, kind in (SHORT, SHORT + REPLY, ACK)
    well = magic == MAGIC[job.version] and kind <= ACK and count <= (0 if ack else MOST_ARGS)
    well = well and reserved == 0 and (handler == 0) == ack and (offset == 0 or kind in (LONG, LONG + REPLY))
    well = well and number > 0 and source != target and length <= (0 if short else MOST_BYTES)
    if not well or len(data) != HEADER.size + 4 * count + length:
        return None
    start = HEADER.size + 4 * count
    args = list(struct.unpack(f">{count}i", data[HEADER.size : start]))
    return Message(kind, handler, args, data[start:], offset, source, target, slot, number), number_of_job
