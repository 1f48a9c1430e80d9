/* Messages that add. Numbers go packed, as many in a message as one takes, and its handler adds them: a handler runs at
 * most once, so each number is added once, whatever the network loses or repeats.
 *
 * Rows that are a stride apart go with one place; those that lie elsewhere with a place each. */
#ifndef COMEXG_ACCUMULATE_H
#define COMEXG_ACCUMULATE_H

#include "add.h"
#include "order.h"

/* Sends what adds rows of so many bytes each to rows of a node. Their numbers are copied as it returns. */
struct comexg_rows {
    const char *src;
    char *dst;
    size_t bytes, count, src_stride, dst_stride;
};
void comexg_send_rows(const struct comexg_scaled *scaled, int node, const struct comexg_rows *rows);

/* Gathers rows, each with its place, and sends them as the message is full. */
struct comexg_gather {
    const struct comexg_scaled *scaled;
    int node;
    size_t row;                /* the bytes of each row */
    struct comexg_range range; /* in which all places are */
    size_t length;             /* what is gathered */
};
void comexg_gather_row(struct comexg_gather *gather, const void *src, void *dst);
void comexg_gather_end(struct comexg_gather *gather);

/* The bytes that a row may have so that it is gathered. */
size_t comexg_gather_most(void);

#endif
