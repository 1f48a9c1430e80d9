/* What the calls of transfers have in common: those of one range, and those of many pieces. */
#ifndef GASNETL_TRANSFER_CALLS_H
#define GASNETL_TRANSFER_CALLS_H

#include <stdbool.h>
#include <stddef.h>

#include "transfers.h"

struct gasnetl_job;

/* What a client asks for. */
struct gasnetl_asked {
    const char *call;
    enum gasnetl_kind kind;
    gasnet_node_t node;
    void *far, *near;
    size_t nbytes;
    int byte;
    bool may_wait_for_near; /* a put's source may be read until the sync, as of bulk and blocking ones */
};

/* Ends the job where there is no such node, or the far side isn't in its segment. Else writes where it is there, if it
 * has a byte. */
void gasnetl_judge(const struct gasnetl_job *job, const struct gasnetl_asked *asked, uint64_t *remote);

/* Begins it for an operation. Returns as its near side may be changed, where that mayn't wait for the sync. It is
 * judged first. */
void gasnetl_begin(struct gasnetl_job *job, struct gasnetl_op *op, const struct gasnetl_asked *asked);

/* The operation, or NULL where it is complete already. */
struct gasnetl_op *gasnetl_settled(struct gasnetl_job *job, struct gasnetl_op *op);

/* Where the thread's implicit transfers of this kind are counted: in its access region, if it has begun one. */
struct gasnetl_op *gasnetl_implicit_op(struct gasnetl_job *job, enum gasnetl_kind kind);

#endif
