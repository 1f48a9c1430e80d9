/* What is under way to each process, and the order of operations on one place.
 *
 * A call that returned may have its bytes under way still. So the next one of this process that reads or writes some of
 * the same bytes waits first, and operations on one place act in the order of the calls. Accumulates don't wait for
 * one another: they commute; nor do gets. */
#ifndef COMEXG_ORDER_H
#define COMEXG_ORDER_H

#include "state.h"

/* Bytes of a process, from the first one to the one behind the last. */
struct comexg_range {
    uintptr_t low, high;
};

static inline struct comexg_range comexg_range(const void *at, size_t bytes) {
    return (struct comexg_range){ (uintptr_t)at, (uintptr_t)at + bytes };
}

/* The smallest range that has both. */
struct comexg_range comexg_hull(struct comexg_range a, struct comexg_range b);

/* Wait for what is under way at these bytes of the node, and may not come behind: a read for puts and accumulates, a
 * write for gets too, an accumulate for puts and gets. */
void comexg_before_read(int node, struct comexg_range range);
void comexg_before_write(int node, struct comexg_range range);
void comexg_before_add(int node, struct comexg_range range);

/* A put to these bytes begins, or a get of them, which is one of the thread's implicit ones, or has a request
 * (requests.h). */
void comexg_put_begins(int node, struct comexg_range range);
void comexg_get_begins(int node, struct comexg_range range);

/* A message that adds within these bytes is about to be sent. Its handler's reply is COMEXG_ADDED. */
void comexg_add_begins(int node, struct comexg_range range);
void comexg_added_handler(gasnet_token_t from);

/* Waits until all puts and accumulates to the node, or to all, are complete there. */
void comexg_fence(int node);
void comexg_fence_all(void);

/* Wait for the puts to the node alone, and for the gets from it. */
void comexg_fence_puts(int node);
void comexg_finish_gets(int node);

#endif
