/* Operations: what a handle names, or an access region, or a thread's implicit puts or gets. */
#ifndef GASNETL_OPERATIONS_H
#define GASNETL_OPERATIONS_H

#include <stdbool.h>
#include <stddef.h>
#include <stdint.h>

#include "gasnet.h"

/* What of an operation isn't complete: a transfer of the endpoint's (transfers.h), a range that isn't begun yet, an
 * operation on a word, or a collective. It stands in the record of that one, and in the list of its operation. */
struct gasnetl_part {
    struct gasnetl_part **at; /* what leads to it */
    struct gasnetl_part *behind;
};

struct gasnetl_op {
    struct gasnetl_part *parts;
    gasnet_register_value_t value; /* what a get of a value brings */
    struct gasnetl_op *next;       /* in the list of free ones */
    bool stands;                   /* it isn't free */
};

/* A list of free operations, which grows by whole blocks. */
struct gasnetl_ops {
    struct gasnetl_op *free;
    struct gasnetl_op *left;   /* those of threads that ended, which aren't complete yet */
    struct gasnetl_op *blocks; /* the first of each block leads to the block before it */
};

/* An operation without parts. */
struct gasnetl_op *gasnetl_op_new(struct gasnetl_ops *ops);
void gasnetl_op_free(struct gasnetl_ops *ops, struct gasnetl_op *op);

/* Gives back an operation that nobody synchronises any more, once it is complete. It may be NULL. */
void gasnetl_op_leave(struct gasnetl_ops *ops, struct gasnetl_op *op);

/* It is complete where each part is: none is left. */
static inline bool gasnetl_op_is_complete(const struct gasnetl_op *op) { return !op->parts; }

/* The same of the one that a client's handle names. A handle that was used up ends the job. */
bool gasnetl_handle_is_complete(const struct gasnetl_op *op);

/* A part is added to an operation. Neither may be moved before the part is taken out. */
static inline void gasnetl_part_add(struct gasnetl_op *op, struct gasnetl_part *part) {
    part->at = &op->parts;
    part->behind = op->parts;
    if (part->behind)
        part->behind->at = &part->behind;
    op->parts = part;
}

/* A part is complete. */
static inline void gasnetl_part_take_out(struct gasnetl_part *part) {
    *part->at = part->behind;
    if (part->behind)
        part->behind->at = part->at;
}

#endif
