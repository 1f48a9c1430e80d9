/* Read-modify-writes, by a handler: the numbers are also put, got and read by their own process, which GASNet's atomics
 * don't allow. */
#include <stdatomic.h>
#include <string.h>

#include "groups.h"
#include "handlers.h"
#include "order.h"
#include "watch.h"

/* What is waited for. */
struct answer {
    atomic_bool has_come;
    uint64_t old;
};

static bool is_long(int op) { return op == COMEX_SWAP_LONG || op == COMEX_FETCH_AND_ADD_LONG; }

static bool adds(int op) { return op == COMEX_FETCH_AND_ADD || op == COMEX_FETCH_AND_ADD_LONG; }

static size_t size_of(int op) { return is_long(op) ? sizeof(long) : sizeof(int); }

/* Does the operation here, and answers what the number was. Of an int the low half counts. */
static uint64_t change(int op, void *at, uint64_t operand) {
    uint64_t old = 0;
    gasnet_hsl_lock(&comexg_state.lock);
    memcpy(&old, at, size_of(op));
    const uint64_t new = adds(op) ? old + operand : operand;
    memcpy(at, &new, size_of(op));
    gasnet_hsl_unlock(&comexg_state.lock);
    return old;
}

void comexg_word_handler(gasnet_token_t from, int32_t op, int32_t low, int32_t high, int32_t operand_low,
                         int32_t operand_high, int32_t answer_low, int32_t answer_high) {
    void *at = (void *)(uintptr_t)comexg_join(low, high);
    const uint64_t old = change(op, at, comexg_join(operand_low, operand_high));
    GASNET_SAFE(
        gasnet_AMReplyShort4(from, COMEXG_WORD_DONE, answer_low, answer_high, comexg_low(old), comexg_high(old)));
}

void comexg_word_done_handler(gasnet_token_t from, int32_t answer_low, int32_t answer_high, int32_t old_low,
                              int32_t old_high) {
    struct answer *answer = (struct answer *)(uintptr_t)comexg_join(answer_low, answer_high);
    (void)from;
    answer->old = comexg_join(old_low, old_high);
    atomic_store_explicit(&answer->has_come, true, memory_order_release);
}

static uint64_t ask(int node, int op, void *at, uint64_t operand) {
    struct answer answer = { false, 0 };
    const uint64_t place = comexg_address(at), back = comexg_address(&answer);
    comexg_before_write(node, comexg_range(at, size_of(op)));
    GASNET_SAFE(gasnet_AMRequestShort7((gasnet_node_t)node, COMEXG_WORD, op, comexg_low(place), comexg_high(place),
                                       comexg_low(operand), comexg_high(operand), comexg_low(back), comexg_high(back)));
    GASNET_BLOCKUNTIL(atomic_load_explicit(&answer.has_come, memory_order_acquire));
    return answer.old;
}

int comex_rmw(int op, void *ploc, void *prem, int extra, int proc, comex_group_t group) {
    const int node = comexg_node(proc, group);
    uint64_t operand = (uint64_t)(int64_t)extra, old;
    if (op < COMEX_SWAP || op > COMEX_FETCH_AND_ADD_LONG)
        comexg_die("comex_rmw: there is no operation %d", op);
    if (!adds(op))
        memcpy(&operand, ploc, size_of(op));
    if (node == comexg_state.me)
        old = change(op, prem, operand);
    else {
        comexg_enter();
        old = ask(node, op, prem, operand);
        comexg_leave();
    }
    memcpy(ploc, &old, size_of(op));
    return COMEX_SUCCESS;
}
