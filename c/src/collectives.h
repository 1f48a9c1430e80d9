/* Collectives over all nodes: what clients began, and how far the first of it is.
 *
 * The endpoint has one collective at a time, of at most GASNETL_COLLECTIVE_ROOM bytes a node. So what clients begin is
 * queued, and cut into pieces, each of which is a collective of the endpoint. Each poll takes the first one as far as
 * it goes. The bytes that a piece gives, and its result, stand in the layer's part of the local segment, behind the
 * area. */
#ifndef GASNETL_COLLECTIVES_H
#define GASNETL_COLLECTIVES_H

#include <stdbool.h>
#include <stddef.h>
#include <stdint.h>

#include "gasnet.h"
#include "gasnet_c.h"
#include "operations.h"

struct gasnetl_job;

enum {
    GASNETL_COLLECTIVE_ROOM = GASNET_C_PAYLOAD, /* the bytes that a node gives to a piece at most */
    GASNETL_COLLECTIVE_AREA = 2 * GASNET_C_MAX_NODES * (GASNET_C_COLLECTIVE_HEADER + GASNETL_COLLECTIVE_ROOM),
    GASNETL_COLLECTIVE_RESULT =
        GASNET_C_MAX_NODES * GASNETL_COLLECTIVE_ROOM, /* the bytes of a piece's result at most */
    /* their part of each segment: the area, what the node gives, and its result */
    GASNETL_COLLECTIVES_OWN = GASNETL_COLLECTIVE_AREA + GASNETL_COLLECTIVE_ROOM + GASNETL_COLLECTIVE_RESULT
};

/* What a client began. */
struct gasnetl_collective {
    const char *call;
    uint32_t kind;   /* GASNET_C_BROADCAST to GASNET_C_ALL_MAX */
    gex_Rank_t root; /* 0 of a kind without one */
    const uint8_t *source;
    uint8_t *dest;
    size_t nbytes; /* that each node gives */
    size_t done;   /* of these the bytes of the pieces that are ended */
    uint64_t sign; /* the bit of each word that is turned on the way in and out: so signed words compare as unsigned */
    struct gasnetl_part part; /* of what the client synchronises */
    struct gasnetl_collective *next;
};

struct gasnetl_collectives {
    gasnet_c_collectives handle;
    void (*on_mismatch)(int node);           /* NULL, or what ends the job in place of the layer's own line */
    bool served;                             /* the client hasn't registered their handler itself */
    struct gasnetl_collective *first, *last; /* in the order in which they began */
    bool started;                            /* a piece of the first is */
    bool heard;                              /* something came since the last try to end it: set by who delivers it */
    unsigned unsent;                         /* the nodes that the piece wasn't sent to */
};

/* Makes ready, where the client's handlers are registered. */
void gasnetl_collectives_start(struct gasnetl_job *job);

/* Makes those of the endpoint, which is open. False where there is no memory for them. */
bool gasnetl_collectives_open(struct gasnetl_job *job);

/* For a run-time over the layer: where a node finds that another one called another collective, this function is
 * called with that one's number, and ends the process in its own words. */
void gasnetl_collectives_on_mismatch(void (*end)(int node));

/* Takes what was begun as far as it goes without waiting. */
void gasnetl_collectives_advance(struct gasnetl_job *job);

#endif
