/* Puts and gets of many pieces: vector, indexed and strided. */
#include "pieces.h"

#include "errors.h"
#include "job.h"
#include "sides.h"
#include "transfer_calls.h"

struct pieces {
    const char *call;
    enum gasnetl_kind kind;
    gasnet_node_t node;
    struct gasnetl_side far, near;
    bool is_read_at_once; /* a put's source may be changed as the call returns */
};

static struct gasnetl_asked asked_of(const struct pieces *all, const struct gasnetl_row *piece) {
    return (struct gasnetl_asked){ all->call,   all->kind,     all->node, piece->far,
                                   piece->near, piece->nbytes, 0,         !all->is_read_at_once };
}

/* Begins each piece of a row for an operation, as a transfer of its own. */
static void begin_row(struct gasnetl_job *job, struct gasnetl_op *op, const struct pieces *all,
                      const struct gasnetl_row *row) {
    for (size_t i = 0; i < row->count; i++) {
        const struct gasnetl_row piece = gasnetl_piece_of(row, i);
        const struct gasnetl_asked asked = asked_of(all, &piece);
        gasnetl_begin(job, op, &asked);
    }
}

/* Whether the first piece of a row and its last one are in the node's segment, and so all of them. */
static bool is_inside(const struct gasnetl_job *job, gasnet_node_t node, const struct gasnetl_row *row) {
    const struct gasnetl_row last = gasnetl_piece_of(row, row->count - 1);
    int64_t length;
    uint64_t remote;
    return !__builtin_mul_overflow(row->far_step, row->count - 1, &length) &&
           gasnetl_far(job, node, row->far, row->nbytes, &remote) &&
           gasnetl_far(job, node, last.far, row->nbytes, &remote);
}

/* Ends the job where a piece isn't in the node's segment. */
static void judge_row(const struct gasnetl_job *job, const struct pieces *all, const struct gasnetl_row *row) {
    uint64_t remote;
    if (is_inside(job, all->node, row))
        return;
    for (size_t i = 0; i < row->count; i++) {
        const struct gasnetl_row piece = gasnetl_piece_of(row, i);
        const struct gasnetl_asked asked = asked_of(all, &piece);
        gasnetl_judge(job, &asked, &remote);
    }
}

static void judge_totals(const struct pieces *all) {
    const size_t far = gasnetl_side_total(&all->far), near = gasnetl_side_total(&all->near);
    if (far == SIZE_MAX || near == SIZE_MAX)
        gasnetl_stop(GASNETL_MISUSE, "%s: a side has more bytes than memory can have", all->call);
    if (far != near)
        gasnetl_stop(GASNETL_MISUSE, "%s: one side has %zu bytes, the other %zu", all->call, far, near);
}

/* The pieces that are to be packed. */
struct small {
    size_t count, nbytes;
    struct gasnetl_row last;
};

/* Begins the long pieces for an operation, and judges the small ones, which it answers. */
static struct small begin_long(struct gasnetl_job *job, struct gasnetl_op *op, const struct pieces *all,
                               size_t longest) {
    struct gasnetl_pairs pairs = gasnetl_pairs_of(&all->far, &all->near);
    struct small small = { 0 };
    struct gasnetl_row row;
    while (gasnetl_pairs_next(&pairs, &row)) {
        if (row.nbytes > longest) {
            begin_row(job, op, all, &row);
            continue;
        }
        judge_row(job, all, &row);
        small.count += row.count;
        small.nbytes += row.nbytes * row.count;
        small.last = row;
    }
    return small;
}

/* Begins all pieces for an operation: two small ones or more are packed. The lists may stay until it is complete. */
static void begin_all(struct gasnetl_job *job, struct gasnetl_op *op, const struct pieces *all, bool lists_stay) {
    const size_t longest = gasnetl_pack_longest(job, all->node);
    judge_totals(all);
    const struct small small = begin_long(job, op, all, longest);
    bool is_sent = false;
    unsigned turn = 0;
    if (small.count == 1)
        begin_row(job, op, all, &small.last);
    if (small.count < 2)
        return;
    gasnetl_pack(job, op,
                 &(struct gasnetl_to_pack){ .kind = all->kind,
                                            .to = all->node,
                                            .far = &all->far,
                                            .near = &all->near,
                                            .longest = longest,
                                            .nbytes = small.nbytes,
                                            .lists_stay = lists_stay,
                                            .sent = all->is_read_at_once ? &is_sent : NULL });
    while (all->is_read_at_once && !is_sent)
        gasnetl_wait(job, &turn);
}

static void blocking(const struct pieces *all) {
    struct gasnetl_job *job = gasnetl_enter(all->call);
    struct gasnetl_op op = { 0 };
    unsigned turn = 0;
    gasnetl_thread.stack.to = (uint16_t)(all->node + 1);
    begin_all(job, &op, all, true);
    while (!gasnetl_op_is_complete(&op))
        gasnetl_wait(job, &turn);
    gasnetl_leave(job);
}

static gasnet_handle_t explicit(const struct pieces *all) {
    struct gasnetl_job *job = gasnetl_enter(all->call);
    struct gasnetl_op *op = gasnetl_op_new(&job->transfers.ops);
    begin_all(job, op, all, false);
    op = gasnetl_settled(job, op);
    gasnetl_leave(job);
    return op;
}

static void implicit(const struct pieces *all) {
    struct gasnetl_job *job = gasnetl_enter(all->call);
    begin_all(job, gasnetl_implicit_op(job, all->kind), all, all->is_read_at_once);
    gasnetl_leave(job);
}

/* ---- The calls: PUT and GET put a side together from a call's parameters. */

#define PUT(call, far, near) (&(struct pieces){ call, GASNETL_PUT, dstnode, far, near, false })
#define PUT_READ(call, far, near) (&(struct pieces){ call, GASNETL_PUT, dstnode, far, near, true })
#define GET(call, far, near) (&(struct pieces){ call, GASNETL_GET, srcnode, far, near, false })

#define PUTV                                                                                                           \
    gasnet_node_t dstnode, size_t dstcount, gasnet_memvec_t const dstlist[], size_t srccount,                          \
        gasnet_memvec_t const srclist[]
#define GETV                                                                                                           \
    size_t dstcount, gasnet_memvec_t const dstlist[], gasnet_node_t srcnode, size_t srccount,                          \
        gasnet_memvec_t const srclist[]
#define PUTI                                                                                                           \
    gasnet_node_t dstnode, size_t dstcount, void *const dstlist[], size_t dstlen, size_t srccount,                     \
        void *const srclist[], size_t srclen
#define GETI                                                                                                           \
    size_t dstcount, void *const dstlist[], size_t dstlen, gasnet_node_t srcnode, size_t srccount,                     \
        void *const srclist[], size_t srclen
#define PUTS                                                                                                           \
    gasnet_node_t dstnode, void *dstaddr, const size_t dststrides[], void *srcaddr, const size_t srcstrides[],         \
        const size_t count[], size_t stridelevels
#define GETS                                                                                                           \
    void *dstaddr, const size_t dststrides[], gasnet_node_t srcnode, void *srcaddr, const size_t srcstrides[],         \
        const size_t count[], size_t stridelevels

#define LIST(side) gasnetl_side_of_list(side##count, side##list)
#define PLACES(side) gasnetl_side_of_places(side##count, side##list, side##len)
#define STRIDES(side) gasnetl_side_of_strides(side##addr, side##strides, count, stridelevels)

void gasnet_putv_bulk(PUTV) { blocking(PUT("gasnet_putv_bulk", LIST(dst), LIST(src))); }
void gasnet_getv_bulk(GETV) { blocking(GET("gasnet_getv_bulk", LIST(src), LIST(dst))); }
gasnet_handle_t gasnet_putv_nb_bulk(PUTV) { return explicit(PUT("gasnet_putv_nb_bulk", LIST(dst), LIST(src))); }
gasnet_handle_t gasnet_getv_nb_bulk(GETV) { return explicit(GET("gasnet_getv_nb_bulk", LIST(src), LIST(dst))); }
void gasnet_putv_nbi_bulk(PUTV) { implicit(PUT("gasnet_putv_nbi_bulk", LIST(dst), LIST(src))); }
void gasnet_getv_nbi_bulk(GETV) { implicit(GET("gasnet_getv_nbi_bulk", LIST(src), LIST(dst))); }

void gasnet_puti_bulk(PUTI) { blocking(PUT("gasnet_puti_bulk", PLACES(dst), PLACES(src))); }
void gasnet_geti_bulk(GETI) { blocking(GET("gasnet_geti_bulk", PLACES(src), PLACES(dst))); }
gasnet_handle_t gasnet_puti_nb_bulk(PUTI) { return explicit(PUT("gasnet_puti_nb_bulk", PLACES(dst), PLACES(src))); }
gasnet_handle_t gasnet_geti_nb_bulk(GETI) { return explicit(GET("gasnet_geti_nb_bulk", PLACES(src), PLACES(dst))); }
void gasnet_puti_nbi_bulk(PUTI) { implicit(PUT("gasnet_puti_nbi_bulk", PLACES(dst), PLACES(src))); }
void gasnet_geti_nbi_bulk(GETI) { implicit(GET("gasnet_geti_nbi_bulk", PLACES(src), PLACES(dst))); }

void gasnet_puts_bulk(PUTS) { blocking(PUT("gasnet_puts_bulk", STRIDES(dst), STRIDES(src))); }
void gasnet_gets_bulk(GETS) { blocking(GET("gasnet_gets_bulk", STRIDES(src), STRIDES(dst))); }
gasnet_handle_t gasnet_puts_nb_bulk(PUTS) { return explicit(PUT("gasnet_puts_nb_bulk", STRIDES(dst), STRIDES(src))); }
gasnet_handle_t gasnet_gets_nb_bulk(GETS) { return explicit(GET("gasnet_gets_nb_bulk", STRIDES(src), STRIDES(dst))); }
void gasnet_puts_nbi_bulk(PUTS) { implicit(PUT("gasnet_puts_nbi_bulk", STRIDES(dst), STRIDES(src))); }
void gasnet_gets_nbi_bulk(GETS) { implicit(GET("gasnet_gets_nbi_bulk", STRIDES(src), STRIDES(dst))); }

void gasnetl_puts_nbi(PUTS) { implicit(PUT_READ("a strided put", STRIDES(dst), STRIDES(src))); }
void gasnetl_puti_nbi(PUTI) { implicit(PUT_READ("an indexed put", PLACES(dst), PLACES(src))); }
