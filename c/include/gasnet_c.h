/* The exports of the proved static library gasnet_c, as C declares them.
 *
 * A node is a value behind a handle. Bytes and times go in, bytes and answers come out: the library has no socket, no
 * clock, no thread and no global. It calls nothing back.
 *
 * What a caller owes stands in docs/GASNET.md, "What C owes". In short: a handle begins as zeros, is never copied, and
 * only the library reads and writes it. Each pointer leads to as many values as its length says, and is never null, not
 * even with length 0; none leads into the handle or the node's segment. There is one call of a handle at a time, each
 * ordered before the next by a lock, a thread's start or its join. C stores into the segment between calls alone, and
 * inside its length.
 *
 * A handle is dead or whole. A call of a dead one does nothing, and its answer is GASNET_C_DEAD. */
#ifndef GASNET_C_H
#define GASNET_C_H

#include <stdbool.h>
#include <stddef.h>
#include <stdint.h>

#ifdef __cplusplus
extern "C" {
#endif

/* What C holds of a node. It begins as zeros. */
typedef struct {
    bool live;
    struct {
        void *at;
    } slot;
} gasnet_c_node;

/* The memory of a node's segment: at least as many bytes as the setup says, all zeros, which nobody has touched. Fresh
 * pages of the system are best: none is written before it is used. */
typedef struct {
    uint8_t *at;
} gasnet_c_memory;

/* Bytes, and arguments, that a record leads to. */
typedef struct {
    const uint8_t *at;
    size_t len;
} gasnet_c_bytes;

typedef struct {
    const int32_t *at;
    size_t len;
} gasnet_c_args;

/* How a node of a job is set up. All nodes of a job have the same numbers, but for `me`. */
typedef struct {
    uint64_t job;     /* the job's number: datagrams of another job are refused */
    uint64_t segment; /* the bytes of each segment: a multiple of 4,096, from 4,096 to 2^40 */
    uint64_t resend;  /* the retransmission time-out, in the unit of `now`: 1 to 1,000,000 */
    uint16_t nodes;   /* 1 to 256; more than 64 have datagrams of version 2 */
    uint16_t me;      /* this node, from 0 */
    uint16_t credits; /* how many requests of each ordered pair of nodes may be outstanding: 1 to 32 */
} gasnet_c_setup;

/* What an event was answered.
 *
 * A datagram that it sends is the first `len` bytes of the caller's buffer, for the node `to`, and `slot` is its slot;
 * if it sends none `len` is 0. (If the buffer has less than GASNET_C_ROOM bytes and the datagram doesn't fit, `len` is
 * 0 too: the request is retransmitted in time.)
 * With GASNET_C_RETURNED `to` is the node that replied, and `slot` the slot of its request.
 * With GASNET_C_HANDLE `value` is the handle. What isn't named here is 0. */
typedef struct {
    uint32_t code;
    uint16_t to, slot;
    uint64_t len, value;
} gasnet_c_told;

/* Whose a datagram is, and which handler of the client's its delivery would run: where its message stands in the bytes.
 * Of bytes that are no message `runs` is 0, and nothing else is said. */
typedef struct {
    uint32_t runs;        /* 0: none; 1: a request's; 2: a reply's */
    uint32_t from;        /* the sender */
    uint32_t handler;     /* its handler's index, whether or not it runs: a client's is 128 to 255 */
    uint32_t category;    /* 0: Short; 1: Medium; 2: Long */
    uint32_t count;       /* how many arguments there are, 0 to 16 */
    uint64_t args_at;     /* where the first of them stands: 4 bytes each, big-endian */
    uint64_t payload_at;  /* where the payload stands */
    uint64_t payload_len; /* how many bytes it has */
    uint64_t place;       /* a Long's place: its offset in the local segment */
} gasnet_c_coming;

/* A request. If `own` is set its payload is the `source_len` bytes of the local segment from `source` on, otherwise
 * `payload`. Pointers have to be right even if they aren't read. */
typedef struct {
    gasnet_c_args args;     /* at most 16 */
    gasnet_c_bytes payload; /* at most 8,192 bytes; a Short has none, whatever this is */
    uint64_t offset;        /* where a Long's payload goes in the target's segment */
    uint64_t source;
    uint64_t source_len;
    uint32_t category; /* 0: Short; 1: Medium; else Long */
    uint16_t to;       /* the node that is to run it */
    uint8_t handler;   /* the handler's index, 128 to 255 */
    bool own;
} gasnet_c_ask;

/* The reply that a handler asked for. */
typedef struct {
    gasnet_c_args args;     /* at most 16 */
    gasnet_c_bytes payload; /* at most 8,192 bytes, outside the segment */
    uint64_t offset;        /* where a Long's payload goes in the requester's segment */
    uint32_t category;      /* 0: Short; 1: Medium; 2: Long; else there is none */
    uint8_t handler;        /* the handler's index, 128 to 255 */
} gasnet_c_reply;

/* What the handler of a request to the local node did: the reply that it asked for, and the bytes that stood at a
 * Long's place when it was done, as a copy. If there are none the payload stands there as it came. */
typedef struct {
    gasnet_c_reply reply;
    gasnet_c_bytes left;
} gasnet_c_run;

/* A transfer of `len` bytes between the local segment, from `local` on, and that of node `to`, from `remote` on. */
typedef struct {
    uint64_t remote, local, len;
    uint32_t kind; /* 0: a put; 1: a get; else a memset, whose `local` isn't read */
    uint16_t to;
    uint8_t byte; /* what a memset writes */
} gasnet_c_move;

/* An operation on a word of 64 bits in a node's segment, little-endian. */
typedef struct {
    uint64_t offset; /* where the word stands in that segment: a multiple of 8 */
    uint64_t a, b;   /* its operands; only a compare-and-swap reads b */
    uint64_t local;  /* where the 16 bytes of the reply go in the local segment, a multiple of 8: what the word was, and
                        the  tag, 8 bytes each, little-endian */
    uint64_t tag;    /* a number that comes back behind the word */
    uint32_t op;     /* what it does: GASNET_C_OP_GET to GASNET_C_OP_MAX */
    uint16_t to;     /* the node whose word it is; the local one too */
} gasnet_c_operation;

/* The operations, by number: what the word becomes. */
enum {
    GASNET_C_OP_GET = 0,          /* what it was */
    GASNET_C_OP_SWAP = 1,         /* a */
    GASNET_C_OP_COMPARE_SWAP = 2, /* b if it was a, else what it was */
    GASNET_C_OP_ADD = 3,          /* what it was plus a, modulo 2^64 */
    GASNET_C_OP_SUB = 4,          /* what it was less a, modulo 2^64 */
    GASNET_C_OP_AND = 5,          /* its bits with those of a */
    GASNET_C_OP_OR = 6,
    GASNET_C_OP_XOR = 7,
    GASNET_C_OP_MIN = 8, /* the smaller of what it was and a, unsigned */
    GASNET_C_OP_MAX = 9  /* the greater */
};

/* What C holds of a node's collectives. It begins as zeros. */
typedef struct {
    bool live;
    struct {
        void *at;
    } slot;
} gasnet_c_collectives;

/* A collective, as a node starts it. */
typedef struct {
    uint64_t from; /* where the bytes that the node gives begin in its segment */
    uint64_t len;  /* how many bytes each node gives: at most the room; for a reduction a multiple of 8 */
    uint32_t kind; /* GASNET_C_BROADCAST to GASNET_C_ALL_MAX */
    uint16_t root; /* 0 for a kind without one */
} gasnet_c_collective;

/* The collectives, by number: what the nodes get. */
enum {
    GASNET_C_BROADCAST = 0,  /* each node the root's bytes */
    GASNET_C_GATHER = 1,     /* the root all bytes, in the order of the nodes */
    GASNET_C_ALL_GATHER = 2, /* each node all bytes */
    GASNET_C_SUM = 3,        /* the root the sums of the words, place by place, modulo 2^64 */
    GASNET_C_MIN = 4,        /* the root the smallest of them, unsigned */
    GASNET_C_MAX = 5,        /* the root the greatest */
    GASNET_C_ALL_SUM = 6,    /* each node the sums */
    GASNET_C_ALL_MIN = 7,
    GASNET_C_ALL_MAX = 8
};

enum {
    GASNET_C_ROOM = 8296,    /* the bytes that a datagram has at most: give this room */
    GASNET_C_PAYLOAD = 8192, /* the bytes of a payload, and of a chunk, at most */
    GASNET_C_MAX_NODES = 256,
    GASNET_C_MAX_CREDITS = 32,
    GASNET_C_OPERATIONS = 256, /* how many transfers of a node may be begun and not synchronised */
    /* The handlers of operations on words: datagrams for them are delivered by gasnet_c_serve. */
    GASNET_C_BATCH_HANDLER = 252,
    GASNET_C_BLOCK_HANDLER = 253,
    /* The handler of collectives: datagrams for it are delivered by gasnet_c_serve too. */
    GASNET_C_COLLECTIVE_HANDLER = 254,
    GASNET_C_COLLECTIVE_HEADER = 16 /* the bytes of a part of the area, beside its room */
};

/* The answers, by number. */
enum {
    GASNET_C_ACCEPTED = 1,  /* a request has a slot, and is to be sent */
    GASNET_C_RAN_HERE = 2,  /* a request to the local node: its run, and its reply's, are recorded */
    GASNET_C_NOT_YET = 3,   /* all credits of the pair are outstanding */
    GASNET_C_EXHAUSTED = 4, /* the numbers of the pair are used up */
    GASNET_C_BAD = 5,       /* an argument is bad, or the call is out of turn; nothing happened */
    GASNET_C_HANDLE = 6,    /* a transfer is under way, under the handle `value` */
    GASNET_C_DONE = 7,      /* it is done, and has no handle */
    GASNET_C_TOO_MANY = 8,  /* 256 operations aren't synchronised, or the last number was given; nothing happened */
    GASNET_C_OK = 9,        /* synchronised; notified; the barrier is complete; a collective is started, or ended */
    GASNET_C_NOT_READY = 10,
    GASNET_C_MISMATCH =
        11, /* the barrier is complete, and its notifies don't match; a collective is ended, and its shapes differ */
    GASNET_C_RAN = 12,      /* a request's handler ran (a client's, or a transfer's at its target); its reply is sent */
    GASNET_C_NOTIFIED = 13, /* a notification of the barrier came; its reply is sent */
    GASNET_C_DUPLICATE = 14, /* a duplicate of the slot's last request; its reply is sent again */
    GASNET_C_STALE = 15,
    GASNET_C_RETURNED = 16, /* a reply came: slot and credit of its request are free */
    GASNET_C_LATE = 17,
    GASNET_C_DEFERRED = 18,
    GASNET_C_REFUSED = 19,        /* bytes that are no message for this node */
    GASNET_C_NOTHING = 20,        /* a tick, or a step of a collective, had nothing to send */
    GASNET_C_RETRANSMISSION = 21, /* a tick retransmits a request */
    GASNET_C_FORBIDDEN = 22,
    GASNET_C_OTHER = 23,
    GASNET_C_NOTIFICATION = 24, /* a tick sends a notification of the barrier */
    GASNET_C_CHUNK = 25,        /* a tick sends the next chunk of the oldest transfer whose target has a credit */
    GASNET_C_DEAD = 99          /* the handle is dead */
};

/* Makes a node: 0; or 1 if a limit is broken, 2 if memory ran out, 3 if the handle is live already. Its table has an
 * entry for each index from 128 to 255, which serves requests and replies, and lists no lock.
 *
 * If the answer is 0 the memory is the node's segment until the node is freed: C reads and writes it between calls
 * alone. Otherwise it is C's again. The library never frees it. */
uint32_t gasnet_c_new(gasnet_c_node *node, const gasnet_c_setup *setup, gasnet_c_memory memory);

/* Gives the memory back that the library took. The handle is dead then, as one of zeros, and the segment's memory is
 * C's again. */
void gasnet_c_free(gasnet_c_node *node);

/* A tick: at most one datagram that is due goes out. RETRANSMISSION, NOTIFICATION, CHUNK, or
 * NOTHING. */
gasnet_c_told gasnet_c_tick(gasnet_c_node *node, uint64_t now, uint8_t *buffer, size_t room);

/* The datagram of the outstanding request to the node `to` in that slot, once more. The answer is how many bytes it
 * has, which are the first of the buffer; 0 if no request is outstanding there, it doesn't fit, or the handle is dead.
 * It changes nothing. Sending these bytes to that node duplicates what was sent, as a network may. */
uint64_t gasnet_c_again(gasnet_c_node *node, uint16_t to, uint16_t slot, uint8_t *buffer, size_t room);

/* From which time on a tick retransmits a request (RETRANSMISSION), as long as nothing happens to the node: before it
 * no tick does, and from then on each does. UINT64_MAX if no tick before that time does, and of a dead handle. It
 * changes nothing. */
uint64_t gasnet_c_next_due(gasnet_c_node *node);

/* Whose these bytes are, and which handler of the client's a delivery would run. It changes nothing. */
gasnet_c_coming gasnet_c_peek(gasnet_c_node *node, const uint8_t *bytes, size_t len);

/* Delivers bytes. If `gasnet_c_peek` told of a handler that runs, C put a Long's payload at its place, ran the handler
 * before this call and made no other call in between, and `reply` is the reply that it asked for. Nothing is stored at
 * the place: what stands there is what the handler left. Otherwise it doesn't matter what `reply` says, but its
 * pointers have to be right. RAN, NOTIFIED, DUPLICATE, RETURNED; STALE, LATE or REFUSED, and nothing happened. */
gasnet_c_told gasnet_c_deliver(gasnet_c_node *node, uint64_t now, const uint8_t *bytes, size_t len,
                               const gasnet_c_reply *reply, uint8_t *buffer, size_t room);

/* A request to another node. ACCEPTED, NOT_YET, EXHAUSTED, BAD. */
gasnet_c_told gasnet_c_request(gasnet_c_node *node, uint64_t now, const gasnet_c_ask *ask, uint8_t *buffer,
                               size_t room);

/* A request to the local node, which sends nothing: C ran its handler before this call, and then its reply's if it
 * asked for one, and made no other call in between. `run` is what the request's handler did, and `reply_left` are the
 * bytes at the place of a Long reply. Both are as they stand when both handlers are done. RAN_HERE, BAD. */
gasnet_c_told gasnet_c_request_own(gasnet_c_node *node, uint64_t now, const gasnet_c_ask *ask, const gasnet_c_run *run,
                                   const uint8_t *reply_left, size_t reply_left_len);

/* Requests an operation on a word of a node. ACCEPTED; RAN_HERE if the node is the local one, and it is done; NOT_YET,
 * EXHAUSTED; BAD if no operation has the number, the node isn't there, or a place isn't inside a segment or isn't a
 * multiple of 8. The word and the tag stand at `local` when the request is RETURNED, or when it is RAN_HERE. */
gasnet_c_told gasnet_c_atomic(gasnet_c_node *node, uint64_t now, const gasnet_c_operation *what, uint8_t *buffer,
                              size_t room);

/* Delivers bytes for one of the two handlers of operations, or for that of collectives, which run in the call: C runs
 * nothing before it. It is answered as gasnet_c_deliver. */
gasnet_c_told gasnet_c_serve(gasnet_c_node *node, uint64_t now, const uint8_t *bytes, size_t len, uint8_t *buffer,
                             size_t room);

/* Begins a transfer. HANDLE, DONE (no bytes, or the local node), TOO_MANY, BAD. Its chunks are sent by ticks. */
gasnet_c_told gasnet_c_begin(gasnet_c_node *node, uint64_t now, const gasnet_c_move *what);

/* Tries to synchronise the operation with this handle. OK (and the handle is used up; of handle 0 always),
 * NOT_READY, EXHAUSTED, BAD. */
gasnet_c_told gasnet_c_sync(gasnet_c_node *node, uint64_t now, uint64_t handle);

/* Notifies the barrier: flags are 0 for a named one, 1 for an anonymous one, 2 for a mismatch, 3 for both. OK; BAD out
 * of turn, for other flags, and if the last phase was reached. Its notifications are sent by ticks. */
gasnet_c_told gasnet_c_notify(gasnet_c_node *node, uint64_t now, int32_t id, uint8_t flags);

/* Tries the barrier. OK, NOT_READY, MISMATCH, EXHAUSTED; BAD out of turn. */
gasnet_c_told gasnet_c_try(gasnet_c_node *node, uint64_t now, int32_t id, uint8_t flags);

/* ---- Collectives over all nodes. Each node starts the same ones in the same order, one at a time:
 * gasnet_c_coll_start, then gasnet_c_coll_step until it was ACCEPTED once for each other node, then gasnet_c_coll_end
 * until it is OK, with deliveries in between. */

/* Makes the collectives of a node: 0; or 1 if the area isn't one, 2 if memory ran out, 3 if their handle is live
 * already, GASNET_C_DEAD if the node's is dead. Their area begins at `base` in each segment and has two parts for
 * each node, of GASNET_C_COLLECTIVE_HEADER + `room` bytes: `base` and `room` are multiples of 8, `room` is 8 to 8,192,
 * and it ends inside the segment. All nodes name one area, and nothing else writes there. */
uint32_t gasnet_c_coll_new(gasnet_c_node *node, gasnet_c_collectives *collectives, uint64_t base, uint64_t room);

/* Gives their memory back; before the node's. The handle is dead then, as one of zeros. */
void gasnet_c_coll_free(gasnet_c_collectives *collectives);

/* Starts the next collective; its bytes are copied. OK; BAD if the one before isn't ended or an argument is bad;
 * EXHAUSTED. */
gasnet_c_told gasnet_c_coll_start(gasnet_c_node *node, gasnet_c_collectives *collectives, uint64_t now,
                                  const gasnet_c_collective *what);

/* Sends it to the next node that can be asked. ACCEPTED, and the datagram is told; NOTHING if it was sent to all, no
 * other one can be asked now, or none is started. */
gasnet_c_told gasnet_c_coll_step(gasnet_c_node *node, gasnet_c_collectives *collectives, uint64_t now, uint8_t *buffer,
                                 size_t room);

/* Tries to end it, with the result at `dest` in the local segment. OK; MISMATCH, and it is ended without a result,
 * since the node `to`, the first of these, started another one; NOT_READY; EXHAUSTED, by the node `to`; BAD if none
 * is started, or the result passes the end of the segment, shares a byte with the area, or is one of words that this
 * node has and isn't at a multiple of 8. */
gasnet_c_told gasnet_c_coll_end(gasnet_c_node *node, gasnet_c_collectives *collectives, uint64_t now, uint64_t dest);

#ifdef __cplusplus
}
#endif

#endif
