/* Packs: messages of the library that carry many small pieces to a node, or from one.
 *
 * A put's pack is a request with the pieces' bytes and, behind them, where they go (runs.h). The target judges all of
 * them, and then copies each to its place. A get's pack is a request that says where the pieces lie, and its reply has
 * their bytes. No datagram of either is longer than a chunk's: one packet of the way.
 *
 * To the endpoint packs are messages for a handler of the client's, as it has no handler for them: so what it promises
 * of messages holds of them, and what is promised of transfers doesn't. The layer runs that handler itself, also on its
 * own thread while the client computes. A client that has registered the index itself gets no packs, and sends none:
 * nodes tell that in their greetings.
 *
 * What can't be sent yet waits behind the others to its node, as lists and not as bytes: so a put's source is read as
 * it is sent. Whose pack is out in which slot the layer knows from the endpoint's answers. */
#ifndef GASNETL_PACKS_H
#define GASNETL_PACKS_H

#include <stdbool.h>
#include <stddef.h>
#include <stdint.h>

#include "gasnet.h"
#include "gasnet_c.h"
#include "operations.h"
#include "runs.h"
#include "sides.h"
#include "transfers.h"

struct gasnetl_job;

enum { GASNETL_PACK_HANDLER = 251 };

/* Where the walk along a transfer's pieces stands: in the first one of a row, before those that follow it. */
struct gasnetl_position {
    struct gasnetl_pairs pairs;
    struct gasnetl_row row;
    size_t gone; /* the bytes of the first piece that are behind it */
};

/* A transfer whose small pieces go by packs. */
struct gasnetl_packing {
    struct gasnetl_part part;
    enum gasnetl_kind kind; /* a put or a get */
    uint16_t to;
    struct gasnetl_side far, near;  /* the client's lists, or copies of them */
    size_t longest;                 /* a piece of more bytes isn't packed */
    size_t left;                    /* the bytes that no pack was sent for */
    struct gasnetl_position next;   /* where these begin */
    unsigned open;                  /* its packs that aren't back */
    bool *sent;                     /* set as there is a pack for each of its bytes; or NULL */
    void *copies;                   /* of the lists, or NULL */
    struct gasnetl_packing *behind; /* in the queue of its node, or among the free ones */
};

/* A pack that is out. */
struct gasnetl_pack {
    struct gasnetl_packing *of;     /* NULL where none is */
    struct gasnetl_position begins; /* of a get: where its bytes go */
    size_t nbytes;                  /* of its pieces */
    bool is_answered;               /* its reply came, and did what it is to do */
};

/* Of a node: the transfers that have packs to send to it, in order, and what is out. */
struct gasnetl_pack_lane {
    struct gasnetl_packing *first, *last;
    unsigned out;    /* its packs that aren't back */
    bool goes_first; /* whose turn it is where packs and chunks want the same credit */
    struct gasnetl_pack slots[GASNET_C_MAX_CREDITS];
};

struct gasnetl_packs {
    bool served;  /* the client has no handler of its own at their index */
    bool *serves; /* the same of each node, as it said */
    struct gasnetl_pack_lane *lanes;
    struct gasnetl_packing *free;
    struct gasnetl_runs runs;        /* of the pack that is made */
    uint8_t bytes[GASNET_C_PAYLOAD]; /* its payload, or that of a reply */
};

struct gasnetl_messages;

/* Makes ready, where the client's handlers are registered. */
void gasnetl_packs_start(struct gasnetl_packs *packs, const struct gasnetl_messages *messages);

/* How many bytes a piece to a node has at most that is packed; 0 where none is. */
size_t gasnetl_pack_longest(const struct gasnetl_job *job, gasnet_node_t to);

/* What is to be packed: all pieces of at most `longest` bytes of a transfer to another node, which have so many bytes
 * together and lie in its segment. */
struct gasnetl_to_pack {
    enum gasnetl_kind kind;
    gasnet_node_t to;
    const struct gasnetl_side *far, *near;
    size_t longest, nbytes;
    bool lists_stay; /* until all of it is complete, or, where the next one isn't NULL, until that is set */
    bool *sent;      /* NULL, or set as soon as nothing of a put's source is to be read any more */
};

/* Begins that for an operation, of which it is a part until it is complete. It doesn't wait. */
void gasnetl_pack(struct gasnetl_job *job, struct gasnetl_op *op, const struct gasnetl_to_pack *what);

/* Sends packs to a node, as its window lets them. */
void gasnetl_packs_feed(struct gasnetl_job *job, uint16_t to);

/* Whether packs are to have the next credit to a node, where chunks of transfers want it too: every other time. */
bool gasnetl_packs_go_first(struct gasnetl_packs *packs, uint16_t to);

/* The request in this slot is back: a pack's, or another's. */
void gasnetl_pack_back(struct gasnetl_job *job, uint16_t to, uint16_t slot);

/* Whether a handler's index is that of packs, which the layer serves. */
bool gasnetl_is_for_packs(const struct gasnetl_job *job, int index);

/* Takes a datagram whose delivery runs the handler of packs, as `coming` tells. */
void gasnetl_pack_take(struct gasnetl_job *job, const gasnet_c_coming *coming, const uint8_t *bytes, size_t length);

#endif
