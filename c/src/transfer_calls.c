/* The calls that begin puts, gets and memsets: blocking, with a handle, implicit, and of values. */
#include <string.h>

#include "errors.h"
#include "job.h"
#include "transfer_calls.h"

_Static_assert(__BYTE_ORDER__ == __ORDER_LITTLE_ENDIAN__, "a value's low bytes come first");

/* ---- What they have in common. */

void gasnetl_judge(const struct gasnetl_job *job, const struct gasnetl_asked *asked, uint64_t *remote) {
    if (asked->node >= job->nodes)
        gasnetl_stop(GASNETL_MISUSE, "%s to node %u: there are %u nodes", asked->call, asked->node, job->nodes);
    if (asked->nbytes && !gasnetl_far(job, asked->node, asked->far, asked->nbytes, remote))
        gasnetl_stop(GASNETL_MISUSE, "%s of %zu bytes at %p: that isn't in the segment of node %u", asked->call,
                     asked->nbytes, asked->far, asked->node);
}

static void move_here(const struct gasnetl_asked *asked) {
    if (asked->kind == GASNETL_PUT)
        memmove(asked->far, asked->near, asked->nbytes);
    else if (asked->kind == GASNETL_GET)
        memmove(asked->near, asked->far, asked->nbytes);
    else
        memset(asked->far, asked->byte, asked->nbytes);
}

/* The local side is anywhere but in a part of the local segment that isn't the client's. A memset has none. */
static void judge_near(const struct gasnetl_job *job, const struct gasnetl_asked *asked) {
    if (asked->kind == GASNETL_MEMSET || !asked->nbytes)
        return;
    if (!asked->near || gasnetl_straddles(job, asked->near, asked->nbytes))
        gasnetl_stop(GASNETL_MISUSE, "%s of %zu bytes, here at %p: that is NULL, or only in part in the local segment",
                     asked->call, asked->nbytes, (void *)asked->near);
}

void gasnetl_begin(struct gasnetl_job *job, struct gasnetl_op *op, const struct gasnetl_asked *asked) {
    struct gasnetl_move move = { .kind = asked->kind,
                                 .node = asked->node,
                                 .byte = (uint8_t)asked->byte,
                                 .near = asked->near,
                                 .nbytes = asked->nbytes };
    uint64_t own;
    gasnetl_judge(job, asked, &move.remote);
    judge_near(job, asked);
    if (!asked->nbytes)
        return;
    if (asked->node == job->me) {
        move_here(asked);
        return;
    }
    bool waits = asked->kind != GASNETL_PUT || asked->may_wait_for_near;
    move.direct = waits && asked->near && gasnetl_far(job, job->me, asked->near, asked->nbytes, &own);
    if (waits) {
        gasnetl_transfer(job, op, &move, NULL);
        return;
    }
    bool begun = false;
    unsigned turn = 0;
    gasnetl_thread.stack.to = (uint16_t)(asked->node + 1);
    gasnetl_transfer(job, op, &move, &begun);
    while (!begun)
        gasnetl_wait(job, &turn);
}

static void move_now(const struct gasnetl_asked *asked) {
    struct gasnetl_job *job = gasnetl_enter(asked->call);
    struct gasnetl_op op = { 0 };
    unsigned turn = 0;
    gasnetl_thread.stack.to = (uint16_t)(asked->node + 1);
    gasnetl_begin(job, &op, asked);
    while (!gasnetl_op_is_complete(&op))
        gasnetl_wait(job, &turn);
    gasnetl_leave(job);
}

struct gasnetl_op *gasnetl_settled(struct gasnetl_job *job, struct gasnetl_op *op) {
    if (!gasnetl_op_is_complete(op))
        return op;
    gasnetl_op_free(&job->transfers.ops, op);
    return GASNET_INVALID_HANDLE;
}

static gasnet_handle_t move_nb(const struct gasnetl_asked *asked) {
    struct gasnetl_job *job = gasnetl_enter(asked->call);
    struct gasnetl_op *op = gasnetl_op_new(&job->transfers.ops);
    gasnetl_begin(job, op, asked);
    op = gasnetl_settled(job, op);
    gasnetl_leave(job);
    return op;
}

struct gasnetl_op *gasnetl_implicit_op(struct gasnetl_job *job, enum gasnetl_kind kind) {
    struct gasnetl_thread *self = &gasnetl_thread;
    struct gasnetl_op **op = kind == GASNETL_GET ? &self->gets : &self->puts;
    if (self->region)
        return self->region;
    if (!*op)
        *op = gasnetl_op_new(&job->transfers.ops);
    return *op;
}

static void move_nbi(const struct gasnetl_asked *asked) {
    struct gasnetl_job *job = gasnetl_enter(asked->call);
    gasnetl_begin(job, gasnetl_implicit_op(job, asked->kind), asked);
    gasnetl_leave(job);
}

/* What each call asks for. A value's call reads its source at once, whatever the way. */
#define PUT(call, waits) (&(struct gasnetl_asked){ call, GASNETL_PUT, node, dest, src, nbytes, 0, waits })
#define GET(call) (&(struct gasnetl_asked){ call, GASNETL_GET, node, src, dest, nbytes, 0, true })
#define MEMSET(call) (&(struct gasnetl_asked){ call, GASNETL_MEMSET, node, dest, NULL, nbytes, val, true })

/* ---- Blocking. */

void gasnet_put(gasnet_node_t node, void *dest, void *src, size_t nbytes) { move_now(PUT("gasnet_put", true)); }
void gasnet_put_bulk(gasnet_node_t node, void *dest, void *src, size_t nbytes) {
    move_now(PUT("gasnet_put_bulk", true));
}
void gasnet_get(void *dest, gasnet_node_t node, void *src, size_t nbytes) { move_now(GET("gasnet_get")); }
void gasnet_get_bulk(void *dest, gasnet_node_t node, void *src, size_t nbytes) { move_now(GET("gasnet_get_bulk")); }
void gasnet_memset(gasnet_node_t node, void *dest, int val, size_t nbytes) { move_now(MEMSET("gasnet_memset")); }

/* ---- With a handle. */

gasnet_handle_t gasnet_put_nb(gasnet_node_t node, void *dest, void *src, size_t nbytes) {
    return move_nb(PUT("gasnet_put_nb", false));
}
gasnet_handle_t gasnet_put_nb_bulk(gasnet_node_t node, void *dest, void *src, size_t nbytes) {
    return move_nb(PUT("gasnet_put_nb_bulk", true));
}
gasnet_handle_t gasnet_get_nb(void *dest, gasnet_node_t node, void *src, size_t nbytes) {
    return move_nb(GET("gasnet_get_nb"));
}
gasnet_handle_t gasnet_get_nb_bulk(void *dest, gasnet_node_t node, void *src, size_t nbytes) {
    return move_nb(GET("gasnet_get_nb_bulk"));
}
gasnet_handle_t gasnet_memset_nb(gasnet_node_t node, void *dest, int val, size_t nbytes) {
    return move_nb(MEMSET("gasnet_memset_nb"));
}

/* ---- Implicit. */

void gasnet_put_nbi(gasnet_node_t node, void *dest, void *src, size_t nbytes) {
    move_nbi(PUT("gasnet_put_nbi", false));
}
void gasnet_put_nbi_bulk(gasnet_node_t node, void *dest, void *src, size_t nbytes) {
    move_nbi(PUT("gasnet_put_nbi_bulk", true));
}
void gasnet_get_nbi(void *dest, gasnet_node_t node, void *src, size_t nbytes) { move_nbi(GET("gasnet_get_nbi")); }
void gasnet_get_nbi_bulk(void *dest, gasnet_node_t node, void *src, size_t nbytes) {
    move_nbi(GET("gasnet_get_nbi_bulk"));
}
void gasnet_memset_nbi(gasnet_node_t node, void *dest, int val, size_t nbytes) {
    move_nbi(MEMSET("gasnet_memset_nbi"));
}

/* ---- Access regions. */

void gasnet_begin_nbi_accessregion(void) {
    struct gasnetl_job *job = gasnetl_enter("gasnet_begin_nbi_accessregion");
    if (gasnetl_thread.region)
        gasnetl_stop(GASNETL_MISUSE, "gasnet_begin_nbi_accessregion: the thread has begun one already");
    gasnetl_thread.region = gasnetl_op_new(&job->transfers.ops);
    gasnetl_leave(job);
}

gasnet_handle_t gasnet_end_nbi_accessregion(void) {
    struct gasnetl_job *job = gasnetl_enter("gasnet_end_nbi_accessregion");
    if (!gasnetl_thread.region)
        gasnetl_stop(GASNETL_MISUSE, "gasnet_end_nbi_accessregion: the thread has begun none");
    gasnet_handle_t handle = gasnetl_settled(job, gasnetl_thread.region);
    gasnetl_thread.region = NULL;
    gasnetl_leave(job);
    return handle;
}

/* ---- Values. */

static void judge_value(const char *call, size_t nbytes) {
    if (nbytes < 1 || nbytes > SIZEOF_GASNET_REGISTER_VALUE_T)
        gasnetl_stop(GASNETL_MISUSE, "%s of %zu bytes: a value has 1 to %d", call, nbytes,
                     SIZEOF_GASNET_REGISTER_VALUE_T);
}

void gasnet_put_val(gasnet_node_t node, void *dest, gasnet_register_value_t value, size_t nbytes) {
    void *src = &value;
    judge_value("gasnet_put_val", nbytes);
    move_now(PUT("gasnet_put_val", true));
}

gasnet_handle_t gasnet_put_nb_val(gasnet_node_t node, void *dest, gasnet_register_value_t value, size_t nbytes) {
    void *src = &value;
    judge_value("gasnet_put_nb_val", nbytes);
    return move_nb(PUT("gasnet_put_nb_val", false));
}

void gasnet_put_nbi_val(gasnet_node_t node, void *dest, gasnet_register_value_t value, size_t nbytes) {
    void *src = &value;
    judge_value("gasnet_put_nbi_val", nbytes);
    move_nbi(PUT("gasnet_put_nbi_val", false));
}

gasnet_register_value_t gasnet_get_val(gasnet_node_t node, void *src, size_t nbytes) {
    gasnet_register_value_t value = 0;
    void *dest = &value;
    judge_value("gasnet_get_val", nbytes);
    move_now(GET("gasnet_get_val"));
    return value;
}

gasnet_valget_handle_t gasnet_get_nb_val(gasnet_node_t node, void *src, size_t nbytes) {
    judge_value("gasnet_get_nb_val", nbytes);
    struct gasnetl_job *job = gasnetl_enter("gasnet_get_nb_val");
    struct gasnetl_op *op = gasnetl_op_new(&job->transfers.ops);
    void *dest = &op->value;
    op->value = 0;
    gasnetl_begin(job, op, GET("gasnet_get_nb_val"));
    gasnetl_leave(job);
    return op;
}

gasnet_register_value_t gasnet_wait_syncnb_valget(gasnet_valget_handle_t handle) {
    struct gasnetl_job *job = gasnetl_enter("gasnet_wait_syncnb_valget");
    unsigned turn = 0;
    if (!handle)
        gasnetl_stop(GASNETL_MISUSE, "gasnet_wait_syncnb_valget: there is no handle");
    while (!gasnetl_handle_is_complete(handle))
        gasnetl_wait(job, &turn);
    gasnet_register_value_t value = handle->value;
    gasnetl_op_free(&job->transfers.ops, handle);
    gasnetl_leave(job);
    return value;
}
