"""The ways that are drawn: of a datagram, of a put from C, of a line of a job. Each step is where it stands, and what it does."""
from .flow import Note, Step, Way

CORE = "the core of the node"

DATAGRAM = Way(
    "A datagram's way: a request and its reply",
    ("node 0, the requester", "node 1, the responder"),
    [
        Step(0, ("node_endpoint", "step", "a thread's call comes in")),
        Step(0, ("node_core", "request", f"{CORE}: its slots, numbers and handlers"), [
            ("part_handlers", "allowed", "the rule table judges the call"),
            ("part_window", "claim", "a credit: the lowest free slot, the pair's next number"),
            ("wire_message", "spell", "the message is written into the buffer of the slot"),
            ("part_window", "commit", "the slot keeps it until its reply was taken"),
        ]),
        Step(0, ("proc_linux", "send", "the socket: the system's, and trusted")),
        Step(1, ("proc_linux", "receive", "the socket: the system's, and trusted")),
        Step(1, ("proc_runner", "turn", "a turn under the lock; its line is written before it sends")),
        Step(1, ("node_endpoint", "step", "a datagram comes: any bytes")),
        Step(1, ("node_core", "deliver", CORE), [
            ("wire_message", "view", "the bytes are read as a message, or refused"),
            ("part_window", "judge", "a new request, a duplicate, or one that is stale"),
            ("part_handlers", "run", "a new one runs its handler, which may reply"),
            ("part_window", "commit", "the slot keeps the reply, or an Ack"),
        ]),
        Step(1, ("proc_linux", "send", "the reply goes")),
        Step(0, ("node_endpoint", "step", "the reply comes, by a turn as above")),
        Step(0, ("node_core", "deliver", CORE), [
            ("wire_message", "view", "the bytes are read, or refused"),
            ("part_window", "take_back", "the slot and its credit are free"),
            ("part_handlers", "run", "the reply's handler runs; of an Ack none"),
        ]),
    ],
    [
        Note("between", 6, ["the network may lose,", "repeat and reorder"]),
        Note("right", 9, [
            "what isn't back is due again (part_window: due),",
            "and a tick sends the same bytes once more;",
            "a request that ran is answered from its slot",
        ]),
    ],
    [("part_window", "due")],
)  # fmt: skip

PUT = Way(
    "A put from C, from its call to its sync",
    ("node 0: gasnet_put_nb, then gasnet_wait_syncnb", "node 1, the target"),
    [
        Step(0, ("transfer_calls.c", "gasnet_put_nb", "judges the range, and makes an operation")),
        Step(0, ("transfers.c", "gasnetl_transfer", "cuts it into pieces of 32 KiB at most"), [
            ("transfers.c", "begin_piece", "copies its bytes behind the client's segment"),
            ("gasnet_c", "gasnet_c_begin", "an export: an explicit put of the piece"),
            ("part_transfers", "begin", "its record, none of whose chunks was issued"),
        ]),
        Step(0, ("progress.c", "gasnetl_send_chunks", "while node 1 has a credit left, for each chunk:"), [
            ("gasnet_c", "gasnet_c_tick", "an export: a tick of the endpoint"),
            ("part_transfers", "next", "the next chunk: 8,192 bytes at most"),
            ("node_core", "ask", "claims a slot; reads the segment; writes the datagram"),
            ("part_transfers", "mark_sent", "the chunk's slot and number"),
            ("transfers.c", "gasnetl_chunk_out", "a hint: whose chunk has that slot"),
        ]),
        Step(0, ("network.c", "gasnetl_network_send", "the socket")),
        Step(1, ("progress.c", "gasnetl_poll", "in any call of node 1 that polls"), [
            ("gasnet_c", "gasnet_c_deliver", "an export: any bytes"),
            ("part_window", "judge", "a duplicate runs nothing, and has its Ack again"),
            ("node_core", "run_library", "handler 64: the payload lands in the segment"),
            ("part_window", "commit", "the slot keeps the Ack"),
        ]),
        Step(1, ("network.c", "gasnetl_network_send", "the Ack goes")),
        Step(0, ("syncs.c", "gasnet_wait_syncnb", "polls until each piece of the operation is complete"), [
            ("gasnet_c", "gasnet_c_deliver", "the Ack comes"),
            ("part_window", "take_back", "the slot and its credit are free"),
            ("part_transfers", "back", "the chunk is back: so it was written exactly once"),
            ("transfers.c", "gasnetl_chunk_back", "with its last chunk the endpoint is asked"),
            ("gasnet_c", "gasnet_c_sync", "an export: the put is complete, and answered Ok"),
            ("syncs.c", "sync_one", "behind the last Ok the call returns"),
        ]),
    ],
    [
        Note("left", 4, ["A request or an Ack that is lost: the layer sends the request again,", "by measured round trips, and it is acknowledged again."]),
        Note("right", 6, ["grey: proved, in Rattle", "white: the C layer, tested"]),
    ],
)  # fmt: skip

LINE = Way(
    "A line of a job, from its text to the step of the world",
    ("the text is read, as a whole", "the schedule runs, line by line"),
    [
        Step(0, ("text_job", "read_job", "the text is a job's, or the first bad line is told"), [
            ("text_job", "head_at", "the settings of the job"),
            ("text_job", "schedule_at", "the lines behind 'schedule'"),
            ("text_steps", "timed_at", "'7 call 0 0 short 1 128 5': a time and a ScheduledEvent"),
            ("text_calls", "call_at", "'short 1 128 5': the form of that name, and its words"),
        ]),
        Step(0, ("sim_run", "run_job", "a world that was just opened, and the job's lines")),
        Step(1, ("sim_run", "world_event", "its event, as the world has it"), [
            ("text_script", "call_of", "its call; the operands cN are read from the node's cells"),
        ]),
        Step(1, ("sim_world", "step", "one event of the world"), [
            ("sim_world", "pair", "which pair of nodes; a delivery of what wasn't sent: Unsent"),
            ("sim_world", "happen", "on the node's endpoint, and on the pair's exchanges"),
            ("node_endpoint", "call", "of a delivery: step, with the bytes of the sender's slot"),
            ("node_core", "request", "as in the datagram's way"),
            ("sim_world", "add", "the exchanges note the slot of the accepted request"),
        ]),
        Step(1, ("sim_run", "write_event_answer", "the line of the answer"), [
            ("text_script", "write_answer", "its number and its words: '1 accepted 1 0 1'"),
            ("base_io", "write_all", "into the sink's buffer; large pieces go to the output"),
        ]),
    ],
    [Note("left", 3, ["A line 'request 0 1 1' or 'reply 0 1 1' delivers a message:", "deliver of sim_world takes it from the sender's slot.",
                      "'settle' is rounds of the same events."])],
    [("sim_world", "deliver")],
)  # fmt: skip

WAYS = {"docs/datagram.svg": DATAGRAM, "docs/put.svg": PUT, "docs/line.svg": LINE}
