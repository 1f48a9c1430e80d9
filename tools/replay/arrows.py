"""The messages between rows: which delivery is of which sending."""
from collections import defaultdict
from dataclasses import dataclass

MESSAGE, RETRANSMISSION, DUPLICATE = "message", "retransmission", "duplicate"


@dataclass
class Arrow:
    """A message on its way from a row to a row. It is lost where it has no end; nobody sent it where it has no start."""

    message: object
    look: str
    start: int = None
    end: int = None
    deferred: bool = False

    @property
    def kind(self):
        return self.message.key[0]


def sendings_that_came(sendings, deliveries):
    """As many sendings as can have come one by one, in order: the latest ones, where not all did."""
    came, limit = [], len(sendings)
    for delivery in reversed(deliveries):
        before = [place for place in range(limit) if sendings[place] < delivery]
        if before:
            limit = before[-1]
            came.insert(0, sendings[limit])
    return came


def matched(sendings, deliveries):
    """For each delivery of a message its sending. Which one came can't be told from the bytes. The picture takes it that none
    overtook another, that no more were lost than have to be, that an earlier one was lost rather than a later one, and that what
    came beside is a duplicate of the latest one that came."""
    left, sending_of, latest = sendings_that_came(sendings, deliveries), {}, None
    for delivery in deliveries:
        if left and left[0] < delivery:
            latest = left.pop(0)
        sending_of[delivery] = latest
    return sending_of


def arrows_of_message(rows, sendings, deliveries):
    """The arrows of a message that was sent in these rows and delivered in those."""
    sending_of = matched(sendings, deliveries)
    message = rows[sendings[0]].sent
    came, arrows = set(), []
    for delivery in deliveries:
        sending, deferred = sending_of[delivery], rows[delivery].answer.startswith("deferred")
        look = DUPLICATE if sending in came else RETRANSMISSION if rows[sending].repeats else MESSAGE
        if not deferred:
            came.add(sending)
        arrows.append(Arrow(message, look, sending, delivery, deferred))
    for sending in sendings:
        if sending not in sending_of.values():
            arrows.append(Arrow(message, RETRANSMISSION if rows[sending].repeats else MESSAGE, sending))
    return arrows


def arrows_of(rows):
    """All arrows between these rows."""
    sendings, deliveries = defaultdict(list), defaultdict(list)
    for place, row in enumerate(rows):
        if row.sent:
            sendings[row.sent.key].append(place)
        if row.got:
            deliveries[row.got].append(place)
    arrows = [Arrow(row.foreign, MESSAGE, None, place) for place, row in enumerate(rows) if row.foreign]
    for key in sendings:
        arrows += arrows_of_message(rows, sendings[key], deliveries[key])
    return arrows
