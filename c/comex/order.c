#include "order.h"

#include <stdatomic.h>

#include "requests.h"

/* What may be under way to a node: the hulls of the places. */
struct under_way {
    struct comexg_range puts, gets, adds;
    atomic_uint open; /* messages that add, whose reply is due */
};

static struct under_way to[GASNET_MAXNODES];

static bool is_none(struct comexg_range range) { return range.low == range.high; }

static bool overlap(struct comexg_range a, struct comexg_range b) { return a.low < b.high && b.low < a.high; }

struct comexg_range comexg_hull(struct comexg_range a, struct comexg_range b) {
    if (is_none(a))
        return b;
    if (is_none(b))
        return a;
    return (struct comexg_range){ a.low < b.low ? a.low : b.low, a.high > b.high ? a.high : b.high };
}

/* ---- What waits. Puts are waited for together, whatever node they go to, and so are gets. */

static void wait_for_puts(void) {
    gasnet_wait_syncnbi_puts();
    comexg_requests_wait();
    for (int node = 0; node < comexg_state.size; node++)
        to[node].puts = (struct comexg_range){ 0, 0 };
}

static void wait_for_gets(void) {
    gasnet_wait_syncnbi_gets();
    comexg_requests_wait();
    for (int node = 0; node < comexg_state.size; node++)
        to[node].gets = (struct comexg_range){ 0, 0 };
}

static unsigned open_at(int node) { return atomic_load_explicit(&to[node].open, memory_order_relaxed); }

static void wait_for_adds(int node) {
    GASNET_BLOCKUNTIL(!open_at(node));
    to[node].adds = (struct comexg_range){ 0, 0 };
}

void comexg_fence_puts(int node) {
    if (!is_none(to[node].puts))
        wait_for_puts();
}

void comexg_finish_gets(int node) {
    if (!is_none(to[node].gets))
        wait_for_gets();
}

void comexg_fence(int node) {
    comexg_fence_puts(node);
    if (!is_none(to[node].adds))
        wait_for_adds(node);
}

void comexg_fence_all(void) {
    for (int node = 0; node < comexg_state.size; node++)
        comexg_fence(node);
}

void comexg_before_read(int node, struct comexg_range range) {
    if (overlap(to[node].puts, range))
        wait_for_puts();
    if (overlap(to[node].adds, range))
        wait_for_adds(node);
}

void comexg_before_write(int node, struct comexg_range range) {
    comexg_before_read(node, range);
    if (overlap(to[node].gets, range))
        wait_for_gets();
}

void comexg_before_add(int node, struct comexg_range range) {
    if (overlap(to[node].puts, range))
        wait_for_puts();
    if (overlap(to[node].gets, range))
        wait_for_gets();
}

/* ---- What begins. */

void comexg_put_begins(int node, struct comexg_range range) { to[node].puts = comexg_hull(to[node].puts, range); }

void comexg_get_begins(int node, struct comexg_range range) { to[node].gets = comexg_hull(to[node].gets, range); }

void comexg_add_begins(int node, struct comexg_range range) {
    to[node].adds = comexg_hull(to[node].adds, range);
    atomic_fetch_add_explicit(&to[node].open, 1, memory_order_relaxed);
}

void comexg_added_handler(gasnet_token_t from) {
    atomic_fetch_sub_explicit(&to[comexg_sender(from)].open, 1, memory_order_relaxed);
}
