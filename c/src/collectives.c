#include "collectives.h"

#include <stdlib.h>
#include <string.h>

#include "errors.h"
#include "job.h"
#include "transfer_calls.h"

enum { WORD = 8 };
#define SIGN ((uint64_t)1 << 63)

/* ---- Places in the local segment. */

static uint64_t area_at(const struct gasnetl_job *job) {
    return job->segment.stage + GASNETL_STAGE + GASNETL_BLOCKS_OWN;
}

static uint64_t given_at(const struct gasnetl_job *job) { return area_at(job) + GASNETL_COLLECTIVE_AREA; }

static uint64_t result_at(const struct gasnetl_job *job) { return given_at(job) + GASNETL_COLLECTIVE_ROOM; }

/* ---- The beginning and the end. */

void gasnetl_collectives_start(struct gasnetl_job *job) {
    job->collectives.served = !job->messages.handlers[GASNET_C_COLLECTIVE_HANDLER];
}

bool gasnetl_collectives_open(struct gasnetl_job *job) {
    return gasnet_c_coll_new(&job->node, &job->collectives.handle, area_at(job), GASNETL_COLLECTIVE_ROOM) == 0;
}

/* ---- One piece. */

/* How many bytes each node gives to the piece that is next. */
static size_t piece_of(const struct gasnetl_collective *one) {
    size_t rest = one->nbytes - one->done;
    return rest < GASNETL_COLLECTIVE_ROOM ? rest : GASNETL_COLLECTIVE_ROOM;
}

static bool gives(const struct gasnetl_collective *one, gasnet_node_t me) {
    return one->kind != GASNET_C_BROADCAST || one->root == me;
}

static bool has_result(const struct gasnetl_collective *one, gasnet_node_t me) {
    bool at_root = one->kind == GASNET_C_GATHER || one->kind == GASNET_C_SUM || one->kind == GASNET_C_MIN ||
                   one->kind == GASNET_C_MAX;
    return !at_root || one->root == me;
}

static bool gathers(const struct gasnetl_collective *one) {
    return one->kind == GASNET_C_GATHER || one->kind == GASNET_C_ALL_GATHER;
}

/* Turns this bit of each word. */
static void turn(uint8_t *words, size_t nbytes, uint64_t bit) {
    for (size_t i = 0; bit && i < nbytes; i += WORD) {
        uint64_t word;
        memcpy(&word, words + i, WORD);
        word ^= bit;
        memcpy(words + i, &word, WORD);
    }
}

static void start_piece(struct gasnetl_job *job, const struct gasnetl_collective *one) {
    struct gasnetl_collectives *collectives = &job->collectives;
    gasnet_c_collective what = {
        .from = given_at(job), .len = piece_of(one), .kind = one->kind, .root = (uint16_t)one->root
    };
    uint8_t *given = job->segment.base + what.from;
    if (what.len && gives(one, job->me)) {
        memcpy(given, one->source + one->done, what.len);
        turn(given, what.len, one->sign);
    }
    gasnet_c_told told = gasnet_c_coll_start(&job->node, &collectives->handle, job->progress.time, &what);
    if (told.code != GASNET_C_OK)
        gasnetl_stop(GASNETL_BROKEN, "%s: the start of a collective was answered %u", one->call, told.code);
    collectives->started = collectives->heard = true;
    collectives->unsent = job->nodes - 1u;
    for (int node = 0; node < job->nodes; node++)
        if (node != job->me)
            job->peers.of[node].asking++;
}

/* Sends the piece to all nodes that have a credit. */
static void send_piece(struct gasnetl_job *job) {
    struct gasnetl_collectives *collectives = &job->collectives;
    while (collectives->unsent) {
        gasnet_c_told told = gasnet_c_coll_step(&job->node, &collectives->handle, job->progress.time,
                                                gasnetl_network_room(&job->network), GASNET_C_ROOM);
        if (told.code == GASNET_C_NOTHING)
            return;
        if (told.code != GASNET_C_ACCEPTED)
            gasnetl_stop(GASNETL_BROKEN, "a step of a collective was answered %u", told.code);
        collectives->unsent--;
        job->peers.of[told.to].asking--;
        gasnetl_told(job, &told);
    }
}

/* The result of the piece stands at its place: the client gets it. */
static void bring(struct gasnetl_job *job, const struct gasnetl_collective *one) {
    size_t length = piece_of(one), parts = gathers(one) ? job->nodes : 1;
    uint8_t *result = job->segment.base + result_at(job);
    if (!length || !has_result(one, job->me))
        return;
    turn(result, length, one->sign);
    for (size_t i = 0; i < parts; i++)
        memcpy(one->dest + i * one->nbytes + one->done, result + i * length, length);
}

void gasnetl_collectives_on_mismatch(void (*end)(int node)) { gasnetl_job.collectives.on_mismatch = end; }

static _Noreturn void end_by_mismatch(const struct gasnetl_collectives *collectives, const char *call, uint16_t node) {
    if (collectives->on_mismatch) {
        gasnetl_thread.ends_itself = true;
        collectives->on_mismatch(node);
    }
    gasnetl_stop(GASNETL_MISUSE,
                 "%s: node %u called another collective here, or with another root, length or operation", call, node);
}

/* Tries to end the piece. Whether it did. */
static bool end_piece(struct gasnetl_job *job, const struct gasnetl_collective *one) {
    struct gasnetl_collectives *collectives = &job->collectives;
    collectives->heard = false;
    gasnet_c_told told = gasnet_c_coll_end(&job->node, &collectives->handle, job->progress.time, result_at(job));
    if (told.code == GASNET_C_NOT_READY)
        return false;
    if (told.code == GASNET_C_MISMATCH)
        end_by_mismatch(collectives, one->call, told.to);
    if (told.code != GASNET_C_OK)
        gasnetl_stop(GASNETL_BROKEN, "%s: the end of a collective was answered %u", one->call, told.code);
    bring(job, one);
    collectives->started = false;
    return true;
}

/* ---- All of them. */

/* The first one is complete. */
static void finish(struct gasnetl_job *job) {
    struct gasnetl_collectives *collectives = &job->collectives;
    struct gasnetl_collective *one = collectives->first;
    collectives->first = one->next;
    gasnetl_part_take_out(&one->part);
    free(one);
    gasnetl_wake(&job->turns);
}

void gasnetl_collectives_advance(struct gasnetl_job *job) {
    struct gasnetl_collectives *collectives = &job->collectives;
    while (collectives->first) {
        struct gasnetl_collective *one = collectives->first;
        if (!collectives->started)
            start_piece(job, one);
        send_piece(job);
        if (collectives->unsent || !collectives->heard || !end_piece(job, one))
            return;
        one->done += piece_of(one);
        if (one->done == one->nbytes)
            finish(job);
    }
}

/* ---- The calls. */

static void judge(const struct gasnetl_job *job, const struct gasnetl_collective *asked) {
    if (!job->collectives.served)
        gasnetl_stop(GASNETL_MISUSE, "%s: handler %d, which collectives need, is the client's: %s", asked->call,
                     GASNET_C_COLLECTIVE_HANDLER, gasnetl_who_chose(&job->messages, GASNET_C_COLLECTIVE_HANDLER));
    if (asked->root >= job->nodes)
        gasnetl_stop(GASNETL_MISUSE, "%s to node %u: there are %u nodes", asked->call, asked->root, job->nodes);
    if (asked->nbytes && ((gives(asked, job->me) && !asked->source) || (has_result(asked, job->me) && !asked->dest)))
        gasnetl_stop(GASNETL_MISUSE, "%s of %zu bytes: there is no place for them", asked->call, asked->nbytes);
}

static gex_Event_t begin(const struct gasnetl_collective *asked) {
    struct gasnetl_job *job = gasnetl_enter(asked->call);
    struct gasnetl_collectives *collectives = &job->collectives;
    judge(job, asked);
    struct gasnetl_collective *one = malloc(sizeof *one);
    if (!one)
        gasnetl_stop(GASNETL_BROKEN, "there is no memory for another collective");
    *one = *asked;
    struct gasnetl_op *op = gasnetl_op_new(&job->transfers.ops);
    gasnetl_part_add(op, &one->part);
    *(collectives->first ? &collectives->last->next : &collectives->first) = one;
    collectives->last = one;
    gasnetl_request_begins(job);
    gasnetl_collectives_advance(job);
    op = gasnetl_settled(job, op);
    gasnetl_leave(job);
    return op;
}

gex_Event_t gex_Coll_BarrierNB(gex_TM_t tm, gex_Flags_t flags) {
    (void)tm;
    (void)flags;
    return begin(&(struct gasnetl_collective){ .call = "gex_Coll_BarrierNB", .kind = GASNET_C_ALL_GATHER });
}

#define OF_BYTES(name, number, at)                                                                                     \
    ((void)tm, (void)flags,                                                                                            \
     begin(&(struct gasnetl_collective){                                                                               \
         .call = name, .kind = number, .root = at, .source = src, .dest = dst, .nbytes = nbytes }))

gex_Event_t gex_Coll_BroadcastNB(gex_TM_t tm, gex_Rank_t root, void *dst, const void *src, size_t nbytes,
                                 gex_Flags_t flags) {
    return OF_BYTES("gex_Coll_BroadcastNB", GASNET_C_BROADCAST, root);
}

gex_Event_t gasnet_coll_gather_nb(gex_TM_t tm, gex_Rank_t root, void *dst, const void *src, size_t nbytes,
                                  gex_Flags_t flags) {
    return OF_BYTES("gasnet_coll_gather_nb", GASNET_C_GATHER, root);
}

gex_Event_t gasnet_coll_gather_all_nb(gex_TM_t tm, void *dst, const void *src, size_t nbytes, gex_Flags_t flags) {
    return OF_BYTES("gasnet_coll_gather_all_nb", GASNET_C_ALL_GATHER, 0);
}

/* ---- Reductions. */

/* The words of a reduction. */
struct words {
    gex_DT_t type;
    size_t size, count;
    gex_OP_t op;
};

/* The number of the operation, from that of the sum on; the job ends where there is none such. */
static uint32_t operation_of(const char *call, const struct words *words) {
    if ((words->type != GEX_DT_U64 && words->type != GEX_DT_I64) || words->size != WORD)
        gasnetl_stop(GASNETL_MISUSE, "%s: a word is of GEX_DT_I64 or of GEX_DT_U64, and has 8 bytes", call);
    if (words->count > SIZE_MAX / WORD)
        gasnetl_stop(GASNETL_MISUSE, "%s of %zu words: there is no place for them", call, words->count);
    switch (words->op) {
    case GEX_OP_ADD:
        return GASNET_C_SUM;
    case GEX_OP_MIN:
        return GASNET_C_MIN;
    case GEX_OP_MAX:
        return GASNET_C_MAX;
    default:
        gasnetl_stop(GASNETL_MISUSE, "%s: operation %#x is none of ADD, MIN and MAX", call, words->op);
    }
}

static gex_Event_t reduce(struct gasnetl_collective asked, const struct words *words, bool to_all) {
    asked.kind = operation_of(asked.call, words) + (to_all ? GASNET_C_ALL_SUM - GASNET_C_SUM : 0);
    asked.nbytes = words->count * WORD;
    asked.sign = words->type == GEX_DT_I64 && words->op != GEX_OP_ADD ? SIGN : 0;
    return begin(&asked);
}

#define OF_WORDS(name, at, to_all)                                                                                     \
    ((void)tm, (void)user_op, (void)user_cdata, (void)flags,                                                           \
     reduce((struct gasnetl_collective){ .call = name, .root = at, .source = src, .dest = dst },                       \
            &(struct words){ dt, dt_sz, dt_cnt, op }, to_all))

gex_Event_t gex_Coll_ReduceToOneNB(gex_TM_t tm, gex_Rank_t root, void *dst, const void *src, gex_DT_t dt, size_t dt_sz,
                                   size_t dt_cnt, gex_OP_t op, gex_Coll_ReduceFn_t user_op, void *user_cdata,
                                   gex_Flags_t flags) {
    return OF_WORDS("gex_Coll_ReduceToOneNB", root, false);
}

gex_Event_t gex_Coll_ReduceToAllNB(gex_TM_t tm, void *dst, const void *src, gex_DT_t dt, size_t dt_sz, size_t dt_cnt,
                                   gex_OP_t op, gex_Coll_ReduceFn_t user_op, void *user_cdata, gex_Flags_t flags) {
    return OF_WORDS("gex_Coll_ReduceToAllNB", 0, true);
}
