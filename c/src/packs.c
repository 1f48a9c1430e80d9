#include "packs.h"

#include <stdlib.h>
#include <string.h>

#include "errors.h"
#include "job.h"
#include "words.h"

enum {
    BLOCK = 16,    /* transfers that are allocated at once */
    WHOLE = 64,    /* the bytes of a piece that isn't cut in two, at most */
    ARGUMENTS = 2, /* of a request: whether it is a get, and the bytes of its pieces */
    SLOT_AT = 20,  /* where the slot stands in a message (docs/FORMATS.md) */
    MEDIUM = 1,    /* categories */
    SHORT = 0
};

/* The endpoint takes no null pointer, not even to nothing. */
static const gasnet_handlerarg_t no_args[1];

void gasnetl_packs_start(struct gasnetl_packs *packs, const struct gasnetl_messages *messages) {
    packs->served = !messages->handlers[GASNETL_PACK_HANDLER];
}

bool gasnetl_is_for_packs(const struct gasnetl_job *job, int index) {
    return index == GASNETL_PACK_HANDLER && job->packs.served;
}

size_t gasnetl_pack_longest(const struct gasnetl_job *job, gasnet_node_t to) {
    if (to >= job->nodes || to == job->me || !job->packs.served || !job->packs.serves[to])
        return 0;
    return job->control.ways[to].chunk / 4 * 3;
}

/* ---- The pieces of a transfer. */

/* Goes past so many pieces of the row. */
static void pass(struct gasnetl_position *at, size_t count) {
    struct gasnetl_row *row = &at->row;
    const struct gasnetl_row first = gasnetl_piece_of(row, count);
    row->far = first.far;
    row->near = first.near;
    row->count -= count;
    at->gone = 0;
}

/* Takes a part of the first piece of the row, of at most `most` bytes. */
static struct gasnetl_row take_part(struct gasnetl_position *at, size_t most) {
    const struct gasnetl_row *row = &at->row;
    const size_t left = row->nbytes - at->gone, nbytes = left < most ? left : most;
    const struct gasnetl_row part = { row->far + at->gone, row->near + at->gone, nbytes, 1, 0, 0 };
    at->gone += nbytes;
    if (at->gone == row->nbytes)
        pass(at, 1);
    return part;
}

/* The next pieces that are packed, or the next part of one, of at most `most` bytes together: a piece of a few bytes is
 * had as a whole. Of no bytes where there are no more, or no room for them. */
static struct gasnetl_row next_pieces(struct gasnetl_position *at, size_t longest, size_t most) {
    struct gasnetl_row *row = &at->row, next;
    while (!row->count && gasnetl_pairs_next(&at->pairs, row))
        if (row->nbytes > longest)
            row->count = 0;
    if (!row->count || (row->nbytes > most && (!most || row->nbytes <= WHOLE)))
        return (struct gasnetl_row){ 0 };
    if (at->gone || row->nbytes > most)
        return take_part(at, most);
    next = *row;
    next.count = most / row->nbytes < row->count ? most / row->nbytes : row->count;
    pass(at, next.count);
    return next;
}

/* ---- Transfers. */

static struct gasnetl_packing *packing_new(struct gasnetl_packs *all) {
    if (!all->free) {
        struct gasnetl_packing *block = calloc(BLOCK, sizeof *block);
        if (!block)
            gasnetl_stop(GASNETL_BROKEN, "there is no memory for another transfer");
        for (int i = 0; i < BLOCK; i++) {
            block[i].behind = all->free;
            all->free = &block[i];
        }
    }
    struct gasnetl_packing *packing = all->free;
    all->free = packing->behind;
    return packing;
}

static void enqueue(struct gasnetl_pack_lane *lane, struct gasnetl_packing *packing) {
    packing->behind = NULL;
    if (lane->first)
        lane->last->behind = packing;
    else
        lane->first = packing;
    lane->last = packing;
}

/* A pack of the first transfer was sent: the next one has its turn. */
static void rotate(struct gasnetl_pack_lane *lane) {
    struct gasnetl_packing *packing = lane->first;
    lane->first = packing->behind;
    if (packing->left)
        enqueue(lane, packing);
    else if (packing->sent)
        *packing->sent = true;
}

/* Reads the lists from copies from now on. */
static void copy_lists(struct gasnetl_packing *packing) {
    const size_t size = gasnetl_side_size(&packing->far) + gasnetl_side_size(&packing->near);
    if (!(packing->copies = malloc(size + 1)))
        gasnetl_stop(GASNETL_BROKEN, "there is no memory for the lists of a transfer");
    gasnetl_side_move(&packing->near, gasnetl_side_move(&packing->far, packing->copies));
}

/* A transfer is told that it is complete, where it is. */
static void settle(struct gasnetl_packs *all, struct gasnetl_packing *packing) {
    if (packing->left || packing->open)
        return;
    gasnetl_part_take_out(&packing->part);
    free(packing->copies);
    packing->behind = all->free;
    all->free = packing;
}

/* ---- What is sent. */

/* Adds pieces to the pack, behind so many bytes. */
static void add(struct gasnetl_job *job, const struct gasnetl_packing *packing, const struct gasnetl_row *row,
                size_t nbytes) {
    struct gasnetl_packs *all = &job->packs;
    const uint64_t offset = (uint64_t)((uint8_t *)row->far - job->segment.bases[packing->to]);
    gasnetl_runs_add(&all->runs, &(struct gasnetl_run_of_pieces){ offset, row->nbytes, row->count, row->far_step });
    if (packing->kind == GASNETL_PUT)
        gasnetl_copy_pieces(&(struct gasnetl_copies){ all->bytes + nbytes, (uint8_t *)row->near, (int64_t)row->nbytes,
                                                      row->near_step, row->nbytes, row->count });
}

/* Puts as many pieces into the pack as have room, from a position on. The bytes of these pieces; those of a put stand
 * in front of the payload. */
static size_t fill(struct gasnetl_job *job, const struct gasnetl_packing *packing, struct gasnetl_position *at) {
    struct gasnetl_packs *all = &job->packs;
    const size_t chunk = gasnetl_recovery_chunk(job, packing->to),
                 room = chunk - ARGUMENTS * sizeof(gasnet_handlerarg_t);
    const bool is_put = packing->kind == GASNETL_PUT;
    size_t nbytes = 0;
    gasnetl_runs_start(&all->runs);
    for (;;) {
        const size_t runs = all->runs.length + 2 * GASNETL_RUN_MOST, used = is_put ? runs + nbytes : runs;
        if (used >= room)
            return nbytes;
        const struct gasnetl_row next = next_pieces(at, packing->longest, is_put ? room - used : chunk - nbytes);
        if (!next.count)
            return nbytes;
        add(job, packing, &next, nbytes);
        nbytes += next.nbytes * next.count;
    }
}

/* Asks the endpoint to send the pack of so many bytes. */
static gasnet_c_told ask(struct gasnetl_job *job, const struct gasnetl_packing *packing, size_t nbytes) {
    struct gasnetl_packs *all = &job->packs;
    const bool is_put = packing->kind == GASNETL_PUT;
    const gasnet_handlerarg_t args[ARGUMENTS] = { !is_put, (gasnet_handlerarg_t)nbytes };
    const size_t front = is_put ? nbytes : 0, runs = gasnetl_runs_end(&all->runs);
    memcpy(all->bytes + front, all->runs.bytes, runs);
    const gasnet_c_ask what = { .args = { args, ARGUMENTS },
                                .payload = { all->bytes, front + runs },
                                .category = MEDIUM,
                                .to = packing->to,
                                .handler = GASNETL_PACK_HANDLER };
    return gasnet_c_request(&job->node, job->progress.time, &what, gasnetl_network_room(&job->network), GASNET_C_ROOM);
}

/* Sends the next pack to a node. False where it has no credit. */
static bool send_pack(struct gasnetl_job *job, uint16_t to) {
    struct gasnetl_pack_lane *lane = &job->packs.lanes[to];
    struct gasnetl_packing *packing = lane->first;
    struct gasnetl_position next = packing->next;
    const size_t nbytes = fill(job, packing, &next);
    const gasnet_c_told told = ask(job, packing, nbytes);
    if (told.code == GASNET_C_NOT_YET)
        return false;
    if (told.code != GASNET_C_ACCEPTED || !nbytes)
        gasnetl_stop(GASNETL_BROKEN, "a pack of %zu bytes was answered %u", nbytes, told.code);
    lane->slots[told.slot] = (struct gasnetl_pack){ packing, packing->next, nbytes, false };
    lane->out++;
    packing->next = next;
    packing->left -= nbytes;
    packing->open++;
    rotate(lane);
    gasnetl_told(job, &told);
    return true;
}

/* Whether a pack may go now. One that waits alone doesn't leave the credit to a request: nothing would wake it. */
static bool may_go(struct gasnetl_job *job, uint16_t to) {
    struct gasnetl_peer *peer = &job->peers.of[to];
    return peer->out < job->progress.credits && gasnetl_recovery_may_send(job, to, GASNETL_BY_LIBRARY, 0) &&
           (gasnetl_library_goes(peer) || !job->packs.lanes[to].out);
}

bool gasnetl_packs_go_first(struct gasnetl_packs *packs, uint16_t to) {
    struct gasnetl_pack_lane *lane = &packs->lanes[to];
    lane->goes_first = !lane->goes_first;
    return lane->goes_first;
}

void gasnetl_packs_feed(struct gasnetl_job *job, uint16_t to) {
    while (job->packs.lanes[to].first && may_go(job, to))
        if (!send_pack(job, to))
            return;
}

void gasnetl_pack(struct gasnetl_job *job, struct gasnetl_op *op, const struct gasnetl_to_pack *what) {
    struct gasnetl_packing *packing = packing_new(&job->packs);
    *packing = (struct gasnetl_packing){ .kind = what->kind,
                                         .to = what->to,
                                         .far = *what->far,
                                         .near = *what->near,
                                         .longest = what->longest,
                                         .left = what->nbytes,
                                         .sent = what->sent };
    packing->next.pairs = gasnetl_pairs_of(&packing->far, &packing->near);
    gasnetl_part_add(op, &packing->part);
    gasnetl_read_clock(job);
    enqueue(&job->packs.lanes[what->to], packing);
    gasnetl_packs_feed(job, what->to);
    if (!what->lists_stay && (packing->left || packing->kind == GASNETL_GET))
        copy_lists(packing);
}

/* ---- What comes: requests. */

/* What a request asks for. */
struct request {
    bool is_get;
    size_t nbytes;       /* of its pieces */
    const uint8_t *runs; /* and how many bytes those are */
    size_t length;
};

/* Reads a request, whose pieces lie in the client's part of the local segment. False where one of them doesn't, or it
 * is no pack. */
static bool read_request(const struct gasnetl_job *job, const gasnet_c_coming *coming, const uint8_t *bytes,
                         struct request *request) {
    if (coming->category != MEDIUM || coming->count != ARGUMENTS)
        return false;
    const uint64_t kind = gasnetl_word_read(bytes + coming->args_at, 4),
                   nbytes = gasnetl_word_read(bytes + coming->args_at + 4, 4), front = kind ? 0 : nbytes;
    if (kind > 1 || !nbytes || front > coming->payload_len)
        return false;
    *request = (struct request){ kind, nbytes, bytes + coming->payload_at + front, coming->payload_len - front };
    return gasnetl_runs_judge(request->runs, request->length, job->segment.size) == nbytes;
}

/* Does what a request asks for. Its reply. */
static gasnet_c_reply serve(struct gasnetl_job *job, const struct request *request) {
    uint8_t *room = job->packs.bytes;
    gasnet_c_reply reply = { .args = { no_args, 0 },
                             .payload = { room, request->is_get ? request->nbytes : 0 },
                             .category = request->is_get ? MEDIUM : SHORT,
                             .handler = GASNETL_PACK_HANDLER };
    if (request->is_get)
        gasnetl_runs_gather(request->runs, request->length, job->segment.base, room);
    else
        gasnetl_runs_spread(request->runs, request->length, job->segment.base, request->runs - request->nbytes);
    return reply;
}

/* ---- What comes: replies. */

/* The pack that a reply answers, or NULL where it is none's, or isn't what was asked for. */
static struct gasnetl_pack *answered_by(struct gasnetl_job *job, const gasnet_c_coming *coming, const uint8_t *bytes) {
    const uint64_t slot = gasnetl_word_read(bytes + SLOT_AT, 2);
    if (coming->count || slot >= GASNET_C_MAX_CREDITS)
        return NULL;
    struct gasnetl_pack *pack = &job->packs.lanes[coming->from].slots[slot];
    const bool is_get = pack->of && pack->of->kind == GASNETL_GET;
    if (!pack->of || coming->category != (is_get ? MEDIUM : SHORT) ||
        coming->payload_len != (is_get ? pack->nbytes : 0))
        return NULL;
    return pack;
}

/* Copies what a get brought to where it goes. */
static void spread(const struct gasnetl_pack *pack, const uint8_t *payload) {
    struct gasnetl_position at = pack->begins;
    for (size_t left = pack->nbytes; left;) {
        const struct gasnetl_row next = next_pieces(&at, pack->of->longest, left);
        gasnetl_copy_pieces(&(struct gasnetl_copies){ (uint8_t *)next.near, payload, next.near_step,
                                                      (int64_t)next.nbytes, next.nbytes, next.count });
        payload += next.nbytes * next.count;
        left -= next.nbytes * next.count;
    }
}

void gasnetl_pack_back(struct gasnetl_job *job, uint16_t to, uint16_t slot) {
    struct gasnetl_pack_lane *lane = &job->packs.lanes[to];
    struct gasnetl_pack *pack = &lane->slots[slot];
    struct gasnetl_packing *packing = pack->of;
    if (!packing)
        return;
    if (!pack->is_answered)
        gasnetl_stop(GASNETL_BROKEN, "node %u answered a pack without a reply", to);
    pack->of = NULL;
    lane->out--;
    packing->open--;
    settle(&job->packs, packing);
}

/* ---- What comes. */

/* Delivers the datagram, with the reply that its handler asked for. */
static void deliver(struct gasnetl_job *job, const uint8_t *bytes, size_t length, const gasnet_c_reply *reply) {
    const gasnet_c_told told = gasnet_c_deliver(&job->node, job->progress.time, bytes, length, reply,
                                                gasnetl_network_room(&job->network), GASNET_C_ROOM);
    gasnetl_told(job, &told);
}

/* Does what a request asks for, if it is a right one, and delivers it. */
static bool take_request(struct gasnetl_job *job, const gasnet_c_coming *coming, const uint8_t *bytes, size_t length) {
    struct request request;
    if (!read_request(job, coming, bytes, &request))
        return false;
    const gasnet_c_reply reply = serve(job, &request);
    deliver(job, bytes, length, &reply);
    return true;
}

/* Takes what a reply brings, if it is one that was asked for, and delivers it. */
static bool take_reply(struct gasnetl_job *job, const gasnet_c_coming *coming, const uint8_t *bytes, size_t length) {
    struct gasnetl_pack *pack = answered_by(job, coming, bytes);
    if (!pack)
        return false;
    if (pack->of->kind == GASNETL_GET)
        spread(pack, bytes + coming->payload_at);
    pack->is_answered = true;
    deliver(job, bytes, length, &gasnetl_no_run.reply);
    return true;
}

void gasnetl_pack_take(struct gasnetl_job *job, const gasnet_c_coming *coming, const uint8_t *bytes, size_t length) {
    if (!(coming->runs == 1 ? take_request : take_reply)(job, coming, bytes, length))
        gasnetl_message_take(job, coming, bytes, length); /* for a handler of the client's, which isn't registered */
}
