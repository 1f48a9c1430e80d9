/* Mutexes. The process that has one keeps who holds it, and who waits, in the order in which they asked. Whoever
 * unlocks it is told who is next, and tells that one: a handler can't. */
#include <stdatomic.h>
#include <stdlib.h>

#include "barrier.h"
#include "handlers.h"
#include "order.h"
#include "watch.h"

enum { NOBODY = -1 };

struct mutex {
    int holder, first, last;
};

/* A node that waits: for one mutex at a time. */
struct waiter {
    int next;
    int32_t low, high; /* where its answer goes */
};

/* What is waited for. */
struct answer {
    atomic_bool has_come;
    int next; /* who is told next that it has the mutex */
    int32_t low, high;
};

static struct mutex *mutexes; /* those of this process */
static int count;
static struct waiter waiters[GASNET_MAXNODES];

/* ---- Handlers of the process that has the mutex. */

static struct mutex *mutex_of(int number) {
    if (number < 0 || number >= count)
        comexg_die("there is no mutex %d here: there are %d", number, count);
    return &mutexes[number];
}

static void wait_in_line(struct mutex *mutex, int node, int32_t low, int32_t high) {
    waiters[node] = (struct waiter){ NOBODY, low, high };
    if (mutex->first == NOBODY)
        mutex->first = node;
    else
        waiters[mutex->last].next = node;
    mutex->last = node;
}

void comexg_lock_handler(gasnet_token_t from, int32_t number, int32_t low, int32_t high) {
    const int node = comexg_sender(from);
    gasnet_hsl_lock(&comexg_state.lock);
    struct mutex *mutex = mutex_of(number);
    const bool is_free = mutex->holder == NOBODY;
    if (is_free)
        mutex->holder = node;
    else
        wait_in_line(mutex, node, low, high);
    gasnet_hsl_unlock(&comexg_state.lock);
    if (is_free)
        GASNET_SAFE(gasnet_AMReplyShort2(from, COMEXG_GRANTED, low, high));
}

void comexg_unlock_handler(gasnet_token_t from, int32_t number, int32_t low, int32_t high) {
    const int node = comexg_sender(from);
    gasnet_hsl_lock(&comexg_state.lock);
    struct mutex *mutex = mutex_of(number);
    if (mutex->holder != node)
        comexg_die("process %d unlocks mutex %d, which it doesn't hold", node, number);
    const int next = mutex->holder = mutex->first;
    const struct waiter waiter = next == NOBODY ? (struct waiter){ 0, 0, 0 } : waiters[next];
    if (next != NOBODY)
        mutex->first = waiter.next;
    gasnet_hsl_unlock(&comexg_state.lock);
    GASNET_SAFE(gasnet_AMReplyShort5(from, COMEXG_UNLOCKED, low, high, next, waiter.low, waiter.high));
}

/* ---- Handlers of the process that asks. */

static struct answer *answer_at(int32_t low, int32_t high) {
    return (struct answer *)(uintptr_t)comexg_join(low, high);
}

void comexg_granted_handler(gasnet_token_t from, int32_t low, int32_t high) {
    (void)from;
    atomic_store_explicit(&answer_at(low, high)->has_come, true, memory_order_release);
}

void comexg_unlocked_handler(gasnet_token_t from, int32_t low, int32_t high, int32_t next, int32_t next_low,
                             int32_t next_high) {
    struct answer *answer = answer_at(low, high);
    (void)from;
    answer->next = next;
    answer->low = next_low;
    answer->high = next_high;
    atomic_store_explicit(&answer->has_come, true, memory_order_release);
}

/* ---- Calls. */

static void ask(int node, gasnet_handler_t handler, int mutex, struct answer *answer) {
    const uint64_t back = comexg_address(answer);
    GASNET_SAFE(gasnet_AMRequestShort3((gasnet_node_t)node, handler, mutex, comexg_low(back), comexg_high(back)));
    GASNET_BLOCKUNTIL(atomic_load_explicit(&answer->has_come, memory_order_acquire));
}

int comex_lock(int mutex, int proc) {
    struct answer answer = { .has_come = false };
    const int node = comexg_node(proc, COMEX_GROUP_WORLD);
    comexg_enter();
    ask(node, COMEXG_LOCK, mutex, &answer);
    comexg_leave();
    return COMEX_SUCCESS;
}

/* What this process did under the mutex is complete before another one has it. */
int comex_unlock(int mutex, int proc) {
    struct answer answer = { .has_come = false };
    const int node = comexg_node(proc, COMEX_GROUP_WORLD);
    comexg_enter();
    comexg_fence_all();
    ask(node, COMEXG_UNLOCK, mutex, &answer);
    if (answer.next != NOBODY)
        GASNET_SAFE(gasnet_AMRequestShort2((gasnet_node_t)answer.next, COMEXG_GRANTED, answer.low, answer.high));
    comexg_leave();
    return COMEX_SUCCESS;
}

int comex_create_mutexes(int num) {
    if (num < 0 || mutexes)
        return COMEX_FAILURE;
    mutexes = calloc((size_t)num + 1, sizeof *mutexes);
    if (!mutexes)
        comexg_die("there is no memory for %d mutexes", num);
    count = num;
    for (int i = 0; i < num; i++)
        mutexes[i] = (struct mutex){ NOBODY, NOBODY, NOBODY };
    comexg_barrier(COMEX_GROUP_WORLD);
    return COMEX_SUCCESS;
}

int comex_destroy_mutexes(void) {
    if (!mutexes)
        return COMEX_FAILURE;
    comexg_barrier(COMEX_GROUP_WORLD);
    free(mutexes);
    mutexes = NULL;
    count = 0;
    return COMEX_SUCCESS;
}
