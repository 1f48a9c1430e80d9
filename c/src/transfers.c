#include "transfers.h"

#include <stdlib.h>
#include <string.h>

#include "errors.h"
#include "job.h"

enum { BLOCK = 64 }; /* operations, or transfers, that are allocated at once */

_Static_assert(GASNET_C_MAX_CREDITS <= 32, "a piece has a bit for each slot");
_Static_assert(GASNET_MAXNODES - 1 <= GASNETL_PIECES, "each peer has a place of its own");

/* ---- Operations. */

void gasnetl_op_free(struct gasnetl_ops *ops, struct gasnetl_op *op) {
    op->stands = false;
    op->next = ops->free;
    ops->free = op;
}

bool gasnetl_handle_is_complete(const struct gasnetl_op *op) {
    if (!op->stands)
        gasnetl_stop(GASNETL_MISUSE, "a handle is synchronised that was synchronised already");
    return gasnetl_op_is_complete(op);
}

/* Those of `left` that are complete are free. */
static void free_left_ops(struct gasnetl_ops *ops) {
    struct gasnetl_op **at = &ops->left;
    while (*at) {
        struct gasnetl_op *op = *at;
        if (!gasnetl_op_is_complete(op)) {
            at = &op->next;
            continue;
        }
        *at = op->next;
        gasnetl_op_free(ops, op);
    }
}

struct gasnetl_op *gasnetl_op_new(struct gasnetl_ops *ops) {
    if (!ops->free)
        free_left_ops(ops);
    if (!ops->free) {
        struct gasnetl_op *block = calloc(BLOCK, sizeof *block);
        if (!block)
            gasnetl_stop(GASNETL_BROKEN, "there is no memory for another operation");
        block[0].next = ops->blocks;
        ops->blocks = block;
        for (int i = 1; i < BLOCK; i++)
            gasnetl_op_free(ops, &block[i]);
    }
    struct gasnetl_op *op = ops->free;
    ops->free = op->next;
    op->parts = NULL;
    op->stands = true;
    return op;
}

void gasnetl_op_leave(struct gasnetl_ops *ops, struct gasnetl_op *op) {
    if (!op)
        return;
    op->next = ops->left;
    ops->left = op;
    free_left_ops(ops);
}

/* ---- Places for pieces. */

/* Whether a peer gets one more: one of its own, or of the common ones, of which more have to be free than it has. */
static bool has_room(const struct gasnetl_transfers *all, const struct gasnetl_lane *lane) {
    return lane->begun < all->own + all->common;
}

static uint16_t take_place(struct gasnetl_transfers *all, struct gasnetl_lane *lane) {
    uint16_t index = all->free;
    all->free = all->pieces[index].next;
    all->begun++;
    if (lane->begun++ >= all->own)
        all->common--;
    return index;
}

static void give_place(struct gasnetl_transfers *all, uint16_t index) {
    struct gasnetl_piece *piece = &all->pieces[index];
    all->begun--;
    if (--all->lanes[piece->to].begun >= all->own)
        all->common++;
    piece->handle = 0;
    piece->next = all->free;
    all->free = index;
}

/* ---- Pieces. */

bool gasnetl_has_chunk(const struct gasnetl_transfers *transfers, uint16_t to) {
    return transfers->lanes[to].sending != GASNETL_NONE;
}

static unsigned chunks_of(size_t nbytes) { return (unsigned)((nbytes + GASNET_C_PAYLOAD - 1) / GASNET_C_PAYLOAD); }

/* How many bytes the next piece has: a chunk that fits the way, or several of the longest. */
static size_t piece_of(const struct gasnetl_job *job, const struct gasnetl_move *rest) {
    size_t most = gasnetl_recovery_chunk(job, rest->node);
    if (most == GASNET_C_PAYLOAD && rest->nbytes > GASNET_C_PAYLOAD)
        most *= gasnetl_recovery_together(job, rest->node);
    if (most > GASNETL_PIECE)
        most = GASNETL_PIECE;
    return rest->nbytes < most ? rest->nbytes : most;
}

/* Whether the next piece may begin: the one before is sent, and there is room in the window, and a place. */
static bool may_begin(const struct gasnetl_job *job, uint16_t to, size_t nbytes) {
    const struct gasnetl_lane *lane = &job->transfers.lanes[to];
    return lane->sending == GASNETL_NONE && has_room(&job->transfers, lane) &&
           gasnetl_recovery_may_send(job, to, GASNETL_BY_LIBRARY, chunks_of(nbytes) - 1);
}

static uint64_t stage_of(const struct gasnetl_job *job, uint16_t index) {
    return job->segment.stage + (uint64_t)index * GASNETL_PIECE;
}

/* Begins the first so many bytes of what is left of a transfer, which becomes shorter. They may begin. */
static void begin_piece(struct gasnetl_job *job, struct gasnetl_move *rest, struct gasnetl_op *op, size_t nbytes) {
    struct gasnetl_transfers *all = &job->transfers;
    struct gasnetl_lane *lane = &all->lanes[rest->node];
    uint16_t index = take_place(all, lane);
    struct gasnetl_piece *piece = &all->pieces[index];
    gasnet_c_move move = { .remote = rest->remote,
                           .local = rest->direct ? (uint64_t)(rest->near - job->segment.base) : stage_of(job, index),
                           .len = nbytes,
                           .kind = rest->kind,
                           .to = rest->node,
                           .byte = rest->byte };
    if (rest->kind == GASNETL_PUT && !rest->direct)
        memcpy(job->segment.base + move.local, rest->near, nbytes);
    gasnet_c_told told = gasnet_c_begin(&job->node, job->progress.time, &move);
    if (told.code != GASNET_C_HANDLE)
        gasnetl_stop(GASNETL_BROKEN, "a transfer was answered %u", told.code);
    piece->handle = told.value;
    piece->out = rest->kind == GASNETL_GET && !rest->direct ? rest->near : NULL;
    piece->nbytes = (uint32_t)nbytes;
    piece->slots = 0;
    piece->to = rest->node;
    gasnetl_part_add(op, &piece->part);
    lane->sending = index;
    lane->unsent = (uint16_t)chunks_of(nbytes);
    rest->remote += nbytes;
    rest->nbytes -= nbytes;
    if (rest->near)
        rest->near += nbytes;
}

void gasnetl_chunk_out(struct gasnetl_job *job, uint16_t to, uint16_t slot) {
    struct gasnetl_lane *lane = &job->transfers.lanes[to];
    if (lane->sending == GASNETL_NONE)
        return;
    lane->hints[slot] = lane->sending;
    job->transfers.pieces[lane->sending].slots |= (uint32_t)1 << slot;
    if (!--lane->unsent)
        lane->sending = GASNETL_NONE;
}

/* ---- The queues of transfers. */

static struct gasnetl_transfer *transfer_new(struct gasnetl_transfers *all) {
    if (!all->spare) {
        struct gasnetl_transfer *block = calloc(BLOCK, sizeof *block);
        if (!block)
            gasnetl_stop(GASNETL_BROKEN, "there is no memory for another transfer");
        block[0].block = all->blocks;
        all->blocks = block;
        for (int i = 0; i < BLOCK; i++) {
            block[i].next = all->spare;
            all->spare = &block[i];
        }
    }
    struct gasnetl_transfer *transfer = all->spare;
    all->spare = transfer->next;
    return transfer;
}

static void enqueue(struct gasnetl_lane *lane, struct gasnetl_transfer *transfer) {
    transfer->next = NULL;
    if (lane->queue)
        lane->queue_end->next = transfer;
    else
        lane->queue = transfer;
    lane->queue_end = transfer;
}

/* All of a transfer is begun: its pieces are the parts of its operation. */
static void transfer_begun(struct gasnetl_transfers *all, struct gasnetl_transfer *transfer) {
    gasnetl_part_take_out(&transfer->part);
    if (transfer->begun)
        *transfer->begun = true;
    transfer->next = all->spare;
    all->spare = transfer;
}

/* How many bytes of the first transfer to a node may begin, as its next piece; 0 where none may. */
static size_t next_piece(const struct gasnetl_job *job, uint16_t to) {
    const struct gasnetl_transfer *first = job->transfers.lanes[to].queue;
    if (!first)
        return 0;
    size_t nbytes = piece_of(job, &first->rest);
    return may_begin(job, to, nbytes) ? nbytes : 0;
}

/* Begins that piece. Then the next transfer has its turn. */
static void begin_next(struct gasnetl_job *job, uint16_t to, size_t nbytes) {
    struct gasnetl_lane *lane = &job->transfers.lanes[to];
    struct gasnetl_transfer *transfer = lane->queue;
    begin_piece(job, &transfer->rest, transfer->op, nbytes);
    lane->queue = transfer->next;
    if (transfer->rest.nbytes)
        enqueue(lane, transfer);
    else
        transfer_begun(&job->transfers, transfer);
}

/* A lane that finds no place has pieces under way: it is fed again as one of them is complete. */
void gasnetl_transfers_feed(struct gasnetl_job *job, uint16_t to) {
    for (size_t nbytes; (nbytes = next_piece(job, to));) {
        begin_next(job, to, nbytes);
        gasnetl_send_chunks(job, to);
    }
}

/* ---- What is complete. */

/* The endpoint answered that a piece is complete. */
static void complete(struct gasnetl_job *job, uint16_t index) {
    struct gasnetl_piece *piece = &job->transfers.pieces[index];
    if (piece->out)
        memcpy(piece->out, job->segment.base + stage_of(job, index), piece->nbytes);
    gasnetl_part_take_out(&piece->part);
    give_place(&job->transfers, index);
}

/* Asks the endpoint whether a piece is complete. */
static bool ask(struct gasnetl_job *job, uint16_t index) {
    const struct gasnetl_piece *piece = &job->transfers.pieces[index];
    gasnet_c_told told = gasnet_c_sync(&job->node, job->progress.time, piece->handle);
    if (told.code == GASNET_C_OK)
        complete(job, index);
    else if (told.code != GASNET_C_NOT_READY)
        gasnetl_stop(GASNETL_BROKEN, "the sync of a transfer with node %u was answered %u", piece->to, told.code);
    return told.code == GASNET_C_OK;
}

/* Whether all chunks of a piece seem to be back, and it isn't to be asked about again anyway. */
static bool seems_complete(const struct gasnetl_transfers *all, uint16_t index) {
    const struct gasnetl_piece *piece = &all->pieces[index];
    return piece->handle && !piece->slots && !piece->asks_again && all->lanes[piece->to].sending != index;
}

/* A piece isn't complete. If no chunk of it says when it may be, it is to be asked about again. */
static void ask_later(struct gasnetl_transfers *all, uint16_t index) {
    struct gasnetl_piece *piece = &all->pieces[index];
    if (!seems_complete(all, index))
        return;
    piece->asks_again = true;
    piece->next = all->asks_again;
    all->asks_again = index;
}

void gasnetl_chunk_back(struct gasnetl_job *job, uint16_t to, uint16_t slot) {
    struct gasnetl_lane *lane = &job->transfers.lanes[to];
    uint16_t index = lane->hints[slot];
    if (index == GASNETL_NONE)
        return;
    lane->hints[slot] = GASNETL_NONE;
    job->transfers.pieces[index].slots &= ~((uint32_t)1 << slot);
    if (seems_complete(&job->transfers, index) && !ask(job, index))
        ask_later(&job->transfers, index);
}

/* Asks about a piece, which is in no list, and begins others where it is complete. */
static bool ask_and_feed(struct gasnetl_job *job, uint16_t index) {
    if (ask(job, index)) {
        gasnetl_transfers_feed(job, job->transfers.pieces[index].to);
        return true;
    }
    ask_later(&job->transfers, index);
    return false;
}

bool gasnetl_transfers_ask_again(struct gasnetl_job *job) {
    struct gasnetl_transfers *all = &job->transfers;
    uint16_t index = all->asks_again;
    bool has_completed = false;
    all->asks_again = GASNETL_NONE;
    while (index != GASNETL_NONE) {
        struct gasnetl_piece *piece = &all->pieces[index];
        uint16_t next = piece->next;
        piece->asks_again = false;
        if (ask_and_feed(job, index))
            has_completed = true;
        index = next;
    }
    return has_completed;
}

bool gasnetl_transfers_ask_all(struct gasnetl_job *job) {
    struct gasnetl_transfers *all = &job->transfers;
    bool has_completed = gasnetl_transfers_ask_again(job);
    for (uint16_t index = 0; all->begun && index < GASNETL_PIECES; index++)
        if (all->pieces[index].handle && !all->pieces[index].asks_again && ask_and_feed(job, index))
            has_completed = true;
    return has_completed;
}

/* ---- The beginning. */

/* Whether a transfer is one piece, which may go now. */
static bool goes_at_once(const struct gasnetl_job *job, const struct gasnetl_move *move) {
    return !job->transfers.lanes[move->node].queue && piece_of(job, move) == move->nbytes &&
           may_begin(job, move->node, move->nbytes);
}

void gasnetl_transfer(struct gasnetl_job *job, struct gasnetl_op *op, const struct gasnetl_move *move, bool *begun) {
    struct gasnetl_transfers *all = &job->transfers;
    if (goes_at_once(job, move)) {
        struct gasnetl_move rest = *move;
        gasnetl_read_clock(job);
        begin_piece(job, &rest, op, rest.nbytes);
        if (begun)
            *begun = true;
        gasnetl_send_chunks(job, move->node);
        return;
    }
    struct gasnetl_transfer *transfer = transfer_new(all);
    *transfer = (struct gasnetl_transfer){ .rest = *move, .op = op, .begun = begun, .block = transfer->block };
    gasnetl_part_add(op, &transfer->part);
    enqueue(&all->lanes[move->node], transfer);
    if (next_piece(job, move->node)) {
        gasnetl_read_clock(job);
        gasnetl_transfers_feed(job, move->node);
    }
}

void gasnetl_transfers_start(struct gasnetl_transfers *transfers, gasnet_node_t nodes) {
    unsigned peers = nodes > 1 ? nodes - 1u : 1;
    *transfers = (struct gasnetl_transfers){ .lanes = transfers->lanes };
    transfers->own = (uint16_t)(GASNETL_PIECES / 2 / peers ? GASNETL_PIECES / 2 / peers : 1);
    transfers->common = (uint16_t)(GASNETL_PIECES - transfers->own * peers);
    transfers->asks_again = GASNETL_NONE;
    for (uint16_t i = 0; i < GASNETL_PIECES; i++)
        transfers->pieces[i].next = i + 1 < GASNETL_PIECES ? (uint16_t)(i + 1) : GASNETL_NONE;
    for (uint16_t node = 0; node < nodes; node++) {
        transfers->lanes[node].sending = GASNETL_NONE;
        memset(transfers->lanes[node].hints, 0xff, sizeof transfers->lanes[node].hints);
    }
}
