/* Recovery: which requests are lost, and when they are sent again.
 *
 * Sending an open request's datagram once more, byte for byte, is what the network may do by itself: so when it is done
 * is the layer's to choose, and no law of the endpoint speaks of it. A request is lost where three that were sent
 * behind it are answered, or one is and its own round trip is over too (RFC 8985); the last one of a burst is probed
 * where no answer comes, each time after twice the time (RFC 8985, section 7.2), but at the latest after GASNET_RESEND.
 * How many requests are on the way is the window's to say; lost ones wait for it too.
 *
 * A peer serves what needs no handler of the client's whenever it comes, and the rest as its client polls. So the two
 * are two flights, and answers of one say nothing of the other. */
#ifndef GASNETL_RECOVERY_H
#define GASNETL_RECOVERY_H

#include <stdbool.h>
#include <stdint.h>

#include "gasnet.h"
#include "gasnet_c.h"
#include "round_trip.h"
#include "window.h"

struct gasnetl_job;

/* Who serves a request. */
enum gasnetl_server { GASNETL_BY_LIBRARY, GASNETL_BY_CLIENT, GASNETL_SERVERS };

enum { GASNETL_NO_SLOT = 0xff };

/* The last transmission of the request in a slot. */
struct gasnetl_transmission {
    uint64_t at, order; /* when it went, and its number among those to the peer, from 1 */
    unsigned times;     /* how often the request went; 0 where none is out in this slot */
    enum gasnetl_server server;
    bool is_lost;           /* it waits to be sent again */
    uint8_t before, behind; /* in its list */
};

/* Transmissions to a peer, in order. */
struct gasnetl_sequence {
    uint8_t first, last;
    unsigned count;
};

/* The requests on the way to a peer that one kind of handler serves. */
struct gasnetl_flight {
    struct gasnetl_sequence sequence;
    uint64_t sent_at;  /* when the last one went */
    uint64_t answered; /* the greatest order of those that were answered */
    unsigned probes;   /* how many went since the last answer */
    struct gasnetl_round_trip trip;
};

struct gasnetl_path {
    struct gasnetl_transmission of[GASNET_C_MAX_CREDITS];
    struct gasnetl_flight flights[GASNETL_SERVERS];
    struct gasnetl_sequence lost; /* those that wait to be sent again */
    struct gasnetl_window window;
    unsigned doublings, unharmed;                 /* of a chunk; the answers since the last one, or since a loss */
    unsigned wanted;                              /* how many have to be, before a chunk is doubled */
    uint64_t order;                               /* of the last transmission */
    uint64_t by_order, by_time, probed, spurious; /* retransmissions by their cause, and how many had no cause */
};

struct gasnetl_recovery {
    struct gasnetl_path *paths; /* to each node */
    uint64_t next_look;         /* nothing is due before, in microseconds */
};

/* Makes ready, before this node greets the others. */
void gasnetl_recovery_start(struct gasnetl_job *job);

/* A greeting of this node was answered after so many microseconds: that is how long the first requests are waited for.
 */
void gasnetl_recovery_greeted(struct gasnetl_job *job, uint16_t node, uint64_t time);

/* Whether it is known how long the way to a node and back is. */
bool gasnetl_recovery_is_measured(const struct gasnetl_job *job, uint16_t node);

/* Opens the windows, where the ways to all nodes are known (job->control.ways). */
void gasnetl_recovery_open(struct gasnetl_job *job);

/* How many bytes a chunk to a peer has at most: as many as one packet takes. Where the credits of the pair, and nothing
 * else, hold the sender back on a way that loses nothing for long, it is more, up to GASNET_C_PAYLOAD. */
uint32_t gasnetl_recovery_chunk(const struct gasnetl_job *job, uint16_t to);

/* Whether a request to a peer may be sent now, beside `waiting` ones that are begun and not sent. */
bool gasnetl_recovery_may_send(const struct gasnetl_job *job, uint16_t to, enum gasnetl_server server,
                               unsigned waiting);

/* How many chunks to a peer may be one operation of the endpoint: a part of the window, so that others are on the way
 * while they wait for each other. */
unsigned gasnetl_recovery_together(const struct gasnetl_job *job, uint16_t to);

/* The request in this slot was sent for the first time. */
void gasnetl_recovery_sent(struct gasnetl_job *job, uint16_t to, uint16_t slot, enum gasnetl_server server);

/* The request in this slot was answered. Those that are lost by that are sent again. */
void gasnetl_recovery_answered(struct gasnetl_job *job, uint16_t to, uint16_t slot);

/* Sends again what is due. What came was taken before, or what is answered goes again. */
void gasnetl_recovery_look(struct gasnetl_job *job);

/* Tells on standard error, for each peer, what was sent again and why, and how the way is. */
void gasnetl_recovery_tell(const struct gasnetl_job *job);

#endif
