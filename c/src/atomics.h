/* Operations on numbers in words of 64 bits, which the endpoint of the word's node does.
 *
 * Each step is one request, and its reply brings what the word was, and a tag, to a block of the layer's part of the
 * own segment, behind the stage. The endpoint names the slot of a request that goes out, and of one that is back: so
 * the layer knows whose step it is without a search. An operation that the node can't do in one step goes by
 * compare-and-swaps, and those of this node on one word go together: while one of them waits for its reply the others
 * wait behind it, and then one compare-and-swap does all of them. */
#ifndef GASNETL_ATOMICS_H
#define GASNETL_ATOMICS_H

#include <stdbool.h>
#include <stddef.h>
#include <stdint.h>

#include "atomic_operations.h"
#include "gasnet.h"
#include "gasnet_c.h"
#include "operations.h"
#include "transfers.h"

struct gasnetl_job;
struct gasnetl_messages;

enum {
    GASNETL_BLOCK = 16, /* the bytes of a block: what the word was, and the tag */
    GASNETL_BLOCKS = GASNET_C_MAX_NODES * GASNET_C_MAX_CREDITS, /* as many as can be out */
    GASNETL_BLOCKS_OWN = GASNETL_BLOCK * GASNETL_BLOCKS         /* their part of each segment */
};

/* An operation. The first one of those on a word has the others behind it. */
struct gasnetl_block {
    struct gasnetl_part part; /* of what the client synchronises */
    void *result;             /* where what the number was goes; or NULL */
    struct gasnetl_change change;
    uint64_t offset;   /* of the word in its node's segment */
    uint16_t to;       /* the word's node */
    uint16_t behind;   /* the next one on the word, or GASNETL_NONE */
    uint16_t next;     /* among the free ones, or among the first ones of a word */
    uint64_t tag;      /* and of the first one: */
    uint64_t expected; /* the word that its compare-and-swap expects */
    uint16_t last;     /* the last one behind it */
    unsigned together; /* how many of them the compare-and-swap does, with it */
};

/* The word that a compare-and-swap left last: the next one on it expects that. */
struct gasnetl_known {
    uint64_t offset, word;
    uint16_t to;
};

struct gasnetl_atomics {
    bool served; /* the client has no handlers of its own at their indexes */
    uint64_t tag;
    struct gasnetl_block *blocks; /* GASNET_C_MAX_CREDITS for each node */
    uint16_t free;
    uint16_t swapping; /* the first ones of each word on which a compare-and-swap is out */
    struct gasnetl_known known;
    uint16_t (*owner)[GASNET_C_MAX_CREDITS]; /* whose block waits for the request in a slot, or GASNETL_NONE */
};

/* Makes ready, where the client's handlers are registered, and the tables for so many nodes are made. */
void gasnetl_atomics_start(struct gasnetl_atomics *atomics, const struct gasnetl_messages *messages,
                           gasnet_node_t nodes);

/* Whether a handler's index is one of theirs. */
static inline bool gasnetl_is_atomic(int index) {
    return index == GASNET_C_BATCH_HANDLER || index == GASNET_C_BLOCK_HANDLER;
}

/* The request in this slot is back: an operation's, or another's. */
void gasnetl_atomic_back(struct gasnetl_job *job, uint16_t to, uint16_t slot);

#endif
