"""Remote atomics: the request that asks a batch, and what the handler of batches does."""
import struct

from .datagram import LONG, REPLY, Message, halves, joined

BATCH, BLOCK = 252, 253
MOST_OPERATIONS = 64
WORD = 8
LIMIT = 2**64
OPERATION = struct.Struct(">4Q")
APPLIED = {  # what a word becomes; the numbers of the operations are in this order
    "get": lambda old, a, b: old,
    "swap": lambda old, a, b: a,
    "cas": lambda old, a, b: b if old == a else old,
    "add": lambda old, a, b: (old + a) % LIMIT,
    "sub": lambda old, a, b: (old - a) % LIMIT,
    "and": lambda old, a, b: old & a,
    "or": lambda old, a, b: old | a,
    "xor": lambda old, a, b: old ^ a,
    "min": lambda old, a, b: min(old, a),
    "max": lambda old, a, b: max(old, a),
}
NAMES = list(APPLIED)


def batch_request(to, local, tag, *words):
    """The words of the Medium request that asks a batch."""
    operations = zip(*(words[place::4] for place in range(4)))
    payload = b"".join(OPERATION.pack(NAMES.index(name), *map(int, numbers)) for name, *numbers in operations)
    args = [*halves(int(local)), *halves(int(tag))]
    return ["medium", to, str(BATCH), f"x{payload.hex()}", *map(str, args)]


def read_batch(client, message):
    """The operations of a message for the handler of batches; none where it says no batch, or one with a bad place."""
    if len(message.args) != 4 or len(message.payload) % OPERATION.size:
        return []
    operations = list(OPERATION.iter_unpack(message.payload))
    places = [(offset, WORD) for _, offset, _, _ in operations]
    places.append((joined(*message.args[:2]), WORD * (len(operations) + 1)))
    good = all(client.inside(offset, length) and offset % WORD == 0 for offset, length in places)
    good = good and all(code < len(NAMES) for code, *_ in operations)
    return operations if good and len(operations) <= MOST_OPERATIONS else []


def serve(client, message):
    """Does the operations of a batch, in order. The reply has what each word was, and the tag; none where there is no batch."""
    operations = read_batch(client, message)
    if not operations:
        return None
    olds = []
    for code, offset, a, b in operations:
        old = int.from_bytes(client.part(offset, WORD), "little")
        client.write(offset, APPLIED[NAMES[code]](old, a, b).to_bytes(WORD, "little"))
        olds.append(old)
    block = struct.pack(f"<{len(olds) + 1}Q", *olds, joined(*message.args[2:]))
    return Message(LONG + REPLY, BLOCK, [], block, joined(*message.args[:2]))
