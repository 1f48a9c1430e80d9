/* Puts, gets and memsets to other nodes.
 *
 * A transfer is cut into pieces, and each piece is begun as one explicit operation of the endpoint, which sends it in
 * chunks. What the client begins is complete where the endpoint's own sync answered GASNET_C_OK for each of its pieces
 * (operations.h): what the layer knows of chunks says when it is worth to ask that, and nothing else.
 *
 * The endpoint moves bytes between segments alone. So a piece whose near side isn't in the client's part of the local
 * segment has a place behind that part, the stage: a put is copied there as it begins, a get is copied out as it is
 * complete.
 *
 * A piece is begun where the window of its node has room, so that its chunks are sent at once, and what goes to one
 * node doesn't wait for another one. Where the way has packets of less than a whole chunk a piece is as long as one
 * packet takes. The places of pieces are shared: each peer has some of its own, and of the others at most as many as
 * are free beside. So whatever one peer leaves unanswered, the others go on. */
#ifndef GASNETL_TRANSFERS_H
#define GASNETL_TRANSFERS_H

#include <stdbool.h>
#include <stddef.h>
#include <stdint.h>

#include "gasnet.h"
#include "gasnet_c.h"
#include "operations.h"

struct gasnetl_job;

enum {
    GASNETL_PIECE = 4 * GASNET_C_PAYLOAD, /* the bytes of a piece at most */
    GASNETL_PIECES = GASNET_C_OPERATIONS,
    GASNETL_STAGE = GASNETL_PIECE * GASNETL_PIECES,
    GASNETL_NONE = 0xffff
};

enum gasnetl_kind { GASNETL_PUT = 0, GASNETL_GET = 1, GASNETL_MEMSET = 2 };

/* What a transfer is to move. */
struct gasnetl_move {
    enum gasnetl_kind kind;
    gasnet_node_t node;
    uint8_t byte;    /* of a memset */
    bool direct;     /* the near side is in the client's part of the local segment, and may be read until the sync */
    uint64_t remote; /* the offset of the far side in its segment */
    uint8_t *near;   /* NULL of a memset */
    size_t nbytes;
};

/* A transfer that isn't begun as a whole yet. */
struct gasnetl_transfer {
    struct gasnetl_part part;
    struct gasnetl_move rest; /* what isn't begun */
    struct gasnetl_op *op;
    bool *begun;                    /* set as the whole is begun; or NULL */
    struct gasnetl_transfer *next;  /* in the lane's queue, or in the list of free ones */
    struct gasnetl_transfer *block; /* in the list of blocks */
};

/* A place for an operation of the endpoint, with its part of the stage. */
struct gasnetl_piece {
    struct gasnetl_part part;
    uint64_t handle; /* the endpoint's; 0 where the place is free */
    uint8_t *out;    /* where a staged get is copied to; else NULL */
    uint32_t nbytes;
    uint32_t slots; /* a hint: in which slots its chunks are on the way, a bit for each */
    uint16_t to;
    uint16_t next;   /* among the free ones, or among those to ask about again */
    bool asks_again; /* it is among the latter */
};

/* Of a node: its transfers that aren't begun as a whole, and its pieces. */
struct gasnetl_lane {
    struct gasnetl_transfer *queue, *queue_end;
    uint16_t begun;                       /* how many places its pieces have */
    uint16_t sending;                     /* the piece that began last, while it has chunks to send, or GASNETL_NONE */
    uint16_t unsent;                      /* the ticks that send these */
    uint16_t hints[GASNET_C_MAX_CREDITS]; /* whose chunk went in which slot: the piece to ask about as it is back */
};

struct gasnetl_transfers {
    struct gasnetl_piece pieces[GASNETL_PIECES];
    uint16_t free;              /* the first free place */
    uint16_t own;               /* how many places each peer has of its own */
    uint16_t common;            /* how many of the others are free */
    uint16_t begun;             /* how many places all pieces have */
    uint16_t asks_again;        /* the pieces of which all chunks seem to be back, and the endpoint says otherwise */
    struct gasnetl_lane *lanes; /* of each node */
    struct gasnetl_transfer *spare, *blocks;
    struct gasnetl_ops ops;
};

/* Makes ready for a job of so many nodes, whose lanes are made. */
void gasnetl_transfers_start(struct gasnetl_transfers *transfers, gasnet_node_t nodes);

/* Whether some piece to this node has a chunk to send. */
bool gasnetl_has_chunk(const struct gasnetl_transfers *transfers, uint16_t to);

/* The endpoint sent the next chunk to this node, in this slot. */
void gasnetl_chunk_out(struct gasnetl_job *job, uint16_t to, uint16_t slot);

/* Begins pieces of the transfers to this node, and sends their chunks, as its window lets them. */
void gasnetl_transfers_feed(struct gasnetl_job *job, uint16_t to);

/* The request in this slot is back: a chunk's, or another's. With its last chunk the endpoint is asked whether a piece
 * is complete. */
void gasnetl_chunk_back(struct gasnetl_job *job, uint16_t to, uint16_t slot);

/* Asks the endpoint again about the pieces that seemed to be complete and weren't. Whether one of them is. */
bool gasnetl_transfers_ask_again(struct gasnetl_job *job);

/* Asks it about each piece, whatever is known of its chunks. Whether one of them is complete. */
bool gasnetl_transfers_ask_all(struct gasnetl_job *job);

/* Begins a transfer to another node for an operation, of which it is a part until it is complete. It doesn't wait: what
 * can't be begun yet is queued, and `begun`, where it isn't NULL, is set as soon as nothing of it is. Before that the
 * near side of a put that isn't direct has to stay as it is. */
void gasnetl_transfer(struct gasnetl_job *job, struct gasnetl_op *op, const struct gasnetl_move *move, bool *begun);

#endif
