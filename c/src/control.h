/* The layer's own datagrams: how nodes find one another's segments as they attach, and how they end together. The
 * proved endpoint never sees them: they begin with other bytes than its own.
 *
 * Each node draws a random number as it starts, its run. Each control datagram names the run of its sender and that
 * of its receiver, as the sender heard it. One that names the receiver's own is fresh: it was sent in this run, by
 * somebody who saw a datagram of it. No other one changes anything, but that a node which asks is answered, so that
 * it hears this one's run. The endpoint's job number is made of GASNET_JOB and the runs of all nodes, so no message
 * of an earlier run fits either. */
#ifndef GASNETL_CONTROL_H
#define GASNETL_CONTROL_H

#include <stdatomic.h>
#include <stdbool.h>
#include <stddef.h>
#include <stdint.h>

#include "gasnet.h"

struct gasnetl_job;

/* The way to a peer. */
struct gasnetl_way {
    uint32_t chunk;  /* the bytes of a chunk's payload at most: its datagram is one packet */
    uint32_t mtu;    /* the bytes of an IP packet: the least that both sides found */
    uint64_t buffer; /* the bytes that may be on the way to the peer: this node's part of its receive buffer */
};

/* What came from a peer so far, as it is told of one that is missing. */
enum gasnetl_came {
    GASNETL_CAME_NOTHING,
    GASNETL_CAME_OTHER_JOB,     /* control datagrams of another GASNET_JOB */
    GASNETL_CAME_OTHER_VERSION, /* those of another version of this layer */
    GASNETL_CAME_SEALED,        /* sealed ones, where this node has no key */
    GASNETL_CAME_STALE,         /* those without this node's run: of an earlier one, or it doesn't hear this node */
    GASNETL_CAME_FRESH          /* it hears this node */
};

struct gasnetl_control {
    uint64_t run;            /* this node's number, not 0 */
    uint8_t job[8];          /* the number of the endpoint's job, as its messages have it; 0 before */
    bool has_size, has_base; /* the local segment's size is fixed; it is placed */
    bool is_ready;           /* this node knows the places of all, and takes the endpoint's datagrams */
    bool is_meeting;         /* it is in gasnet_attach still */
    atomic_int code;         /* with which we end */
    uint64_t buffer;         /* the bytes that each peer may have on the way to this node */
    _Atomic uint32_t
        message; /* the most bytes of a message to any peer whose datagram is one packet, as far as known */
    /* Of each node: */
    uint64_t *runs;  /* the peers', each from its first fresh datagram; 0 before */
    uint64_t *heard; /* what a peer's last datagram before that named */
    enum gasnetl_came *came;
    bool *knows_size, *knows_base;
    bool *knows_ready;        /* the peer said that it is ready */
    bool *knows_we_are_ready; /* it said that it heard that this node is */
    bool *has_left;           /* the peer said that it ends */
    bool *knows_we_left;      /* the peer said that it heard that we end */
    struct gasnetl_way *ways; /* complete where all sizes are known */
    uint32_t *mtu;            /* that this node found of the way to the peer */
};

/* Draws this node's run, and finds what it can know of the ways to the others. False where the system has no random
 * numbers. */
bool gasnetl_control_start(struct gasnetl_job *job);

/* The number of the endpoint's job, where all sizes are exchanged: the same on all nodes. */
uint64_t gasnetl_control_job(const struct gasnetl_control *control);

/* Whether a message of the endpoint has that number. */
bool gasnetl_control_is_of_job(const struct gasnetl_control *control, const uint8_t *bytes, size_t length);

/* Whether a datagram is one of the layer's own, or would be one in another version of it, or under a key. */
bool gasnetl_control_is(const uint8_t *bytes, size_t length);

/* Takes such a datagram of this node. Where it says that the whole job ends, this process does. */
void gasnetl_control_take(struct gasnetl_job *job, uint16_t from, const uint8_t *bytes, size_t length);

/* Whether these bytes, or more, are the front of a control datagram that this node sent in this run. When it was
 * sent, where it was a question whether the peer is there; else 0. */
bool gasnetl_control_is_own(const struct gasnetl_job *job, const uint8_t *bytes, size_t length, uint64_t *asked);

/* Tells all nodes the local segment's size, and waits until all theirs are known, and the ways to them; then the
 * same of the places. A peer that doesn't come ends the job, and so does one that has another GASNET_CREDITS or
 * GASNET_RESEND, another number of nodes, or another build of this layer. */
void gasnetl_exchange_sizes(struct gasnetl_job *job);
void gasnetl_exchange_bases(struct gasnetl_job *job);

/* Waits until all nodes are ready. No node is attached before, so no message comes to a node that isn't there yet.
 * Nor is this one attached before the others heard that it is ready, or a tenth of a second went by: whoever lacks
 * that still asks again. Datagrams of the endpoint are taken meanwhile, and kept where a handler of the client's is
 * to run. */
void gasnetl_meet(struct gasnetl_job *job);

/* Tells the peers that haven't confirmed it that this node ends with its code, and, where it is forced, that all do. */
void gasnetl_tell_end(struct gasnetl_job *job, bool forced);

/* Asks a peer whether it is there. When it was asked. */
uint64_t gasnetl_control_ping(struct gasnetl_job *job, uint16_t node);

#endif
