/* The congestion window of a peer: how many requests may be on the way to it at once (RFC 5681, counted in datagrams).
 *
 * It doubles each round trip at first, and behind its threshold it grows by one each round trip. It grows only while it
 * is what holds the sender back (RFC 9002, section 7.8). A lost request halves it, once a round trip, where round trips
 * say that requests wait in queues; where they don't, the loss says little of the load, and takes a fifth of it (as TCP
 * Veno does), down to the first window. Where nothing is answered any more it falls to GASNETL_WINDOW_LEAST, and
 * doubles again from there up to the first window at least. */
#ifndef GASNETL_WINDOW_H
#define GASNETL_WINDOW_H

#include <stdbool.h>
#include <stdint.h>

struct gasnetl_window {
    unsigned size, threshold, most; /* in requests */
    unsigned answered;              /* those that were answered since it grew last */
    uint64_t reduced;               /* the order of the last transmission when it was reduced last */
};

enum {
    GASNETL_WINDOW_LEAST = 2,
    GASNETL_WINDOW_FIRST = 10,
    GASNETL_WINDOW_QUEUE = 3 /* how many requests wait in queues where a loss is by congestion */
};

/* A window that never passes `most` requests. */
void gasnetl_window_start(struct gasnetl_window *window, unsigned most);

/* A request was answered, while so many were on the way. */
void gasnetl_window_answered(struct gasnetl_window *window, unsigned in_flight);

/* The transmission of this order was lost, and `last` is the order of the last one: what went before the last reduction
 * says nothing new. Some `waiting` requests stand in queues, by the length of round trips. */
void gasnetl_window_lost(struct gasnetl_window *window, uint64_t order, uint64_t last, unsigned waiting);

/* Nothing is answered any more. */
void gasnetl_window_collapsed(struct gasnetl_window *window, uint64_t last);

#endif
