#include "stacks.h"

#include <signal.h>
#include <stdarg.h>
#include <stdio.h>
#include <string.h>
#include <unistd.h>

#include "errors.h"
#include "job.h"
#include "runner.h"

enum { SECOND = 1000000, LATE = 300000, TEXT = 256 }; /* the time in microseconds that the client's threads have */

/* ---- The signal. */

static void count_signal(int signal) {
    (void)signal;
    atomic_fetch_add(&gasnetl_job.stacks.asked, 1);
}

void gasnetl_stacks_start(struct gasnetl_job *job) {
    struct sigaction before, action = { .sa_handler = count_signal, .sa_flags = SA_RESTART };
    sigemptyset(&action.sa_mask);
    if (!sigaction(SIGUSR2, NULL, &before) && before.sa_handler == SIG_DFL && !sigaction(SIGUSR2, &action, NULL))
        gasnetl_runner_tell(GASNETL_TELLS_STACKS, job->me);
}

/* ---- What is told of the node. The calling thread has the turn. */

static double seconds(uint64_t since) { return (double)(gasnetl_clock() - since) / SECOND; }

__attribute__((format(printf, 2, 3))) static void add(char *text, const char *format, ...) {
    size_t length = strlen(text);
    va_list values;
    va_start(values, format);
    vsnprintf(text + length, TEXT - length, format, values);
    va_end(values);
}

/* How many operations of the layer's wait for the endpoint: a number, and what they are. */
static void add_count(char *text, unsigned long count, const char *one, const char *many) {
    if (count)
        add(text, "%s%lu %s", *text ? ", " : "", count, count == 1 ? one : many);
}

/* What is open to a peer; nothing where it is nothing. */
static void describe(const struct gasnetl_job *job, int node, char *text) {
    const struct gasnetl_peer *peer = &job->peers.of[node];
    const struct gasnetl_lane *lane = &job->transfers.lanes[node];
    unsigned long queued = 0;
    for (const struct gasnetl_transfer *one = lane->queue; one; one = one->next)
        queued++;
    *text = 0;
    add_count(text, peer->out, "request without an answer", "requests without an answer");
    add_count(text, lane->begun, "piece of a transfer under way", "pieces of transfers under way");
    add_count(text, queued, "transfer waits for its turn", "transfers wait for their turn");
    add_count(text, peer->asking, "thread waits for a credit", "threads wait for a credit");
}

static bool tell_peer(const struct gasnetl_job *job, int node) {
    char text[TEXT];
    describe(job, node, text);
    if (!*text)
        return false;
    if (job->peers.of[node].heard)
        gasnetl_warn("to node %d: %s; it was heard %.1f s ago", node, text, seconds(job->peers.of[node].heard));
    else
        gasnetl_warn("to node %d: %s; it wasn't heard yet", node, text);
    return true;
}

static void tell_node(const struct gasnetl_job *job) {
    bool told = false;
    for (int node = 0; node < job->nodes; node++)
        told = (node != job->me && tell_peer(job, node)) || told;
    if (!told)
        gasnetl_warn("nothing is open to any node");
    if (job->collectives.first)
        gasnetl_warn("%s is under way: it ends once all nodes have called it", job->collectives.first->call);
}

/* ---- What is told of a thread. */

/* What the call waits for, where its name says that. */
static const char *purpose(const char *call) {
    if (!strcmp(call, "gasnet_barrier_wait"))
        return ", until all nodes have notified";
    if (!strcmp(call, "GASNET_BLOCKUNTIL"))
        return ", until the program's condition holds";
    if (!strcmp(call, "gasnet_AMRequest"))
        return ", for a credit or room in the window";
    return "";
}

static void tell_thread(const struct gasnetl_stack *stack) {
    char to[TEXT] = "";
    if (stack->to)
        add(to, " to node %d", stack->to - 1);
    if (stack->since)
        gasnetl_warn("thread %d waits in %s%s for %.1f s%s", gettid(), stack->call, to, seconds(stack->since),
                     purpose(stack->call));
    else
        gasnetl_warn("thread %d polls in %s%s", gettid(), stack->call, to);
}

void gasnetl_stacks_tell(struct gasnetl_job *job) {
    struct gasnetl_thread *self = &gasnetl_thread;
    const unsigned asked = job->stacks.asked;
    if (self->is_own || !self->stack.call)
        return;
    self->stack.told = asked;
    tell_thread(&self->stack);
    if (atomic_exchange(&job->stacks.told, asked) != asked)
        tell_node(job);
}

struct gasnetl_stack gasnetl_stacks_of_lock(void) {
    return (struct gasnetl_stack){ "gasnet_hsl_lock", gasnetl_clock(), 0, gasnetl_job.stacks.asked };
}

void gasnetl_stacks_look_at_lock(struct gasnetl_stack *stack) {
    const unsigned asked = gasnetl_job.stacks.asked;
    if (stack->told == asked)
        return;
    stack->told = asked;
    gasnetl_warn("thread %d waits in gasnet_hsl_lock for %.1f s, for a lock that another thread holds", gettid(),
                 seconds(stack->since));
}

/* ---- The layer's own thread. */

/* Tells of the node where it has the turn; else why it hasn't. */
static void tell_in_place(struct gasnetl_job *job) {
    if (!gasnetl_try_turn(&job->turns)) {
        gasnetl_warn("no thread waits in a call that polls, and one is inside the library: it may run a handler");
        return;
    }
    gasnetl_warn("no thread is in a call of GASNet that polls");
    tell_node(job);
    gasnetl_leave(job);
}

void gasnetl_stacks_watch(struct gasnetl_job *job) {
    struct gasnetl_stack *own = &gasnetl_thread.stack;
    const unsigned asked = job->stacks.asked;
    if (asked == own->told)
        return;
    if (!own->since)
        own->since = gasnetl_clock();
    if (gasnetl_clock() - own->since < LATE)
        return;
    own->since = 0;
    own->told = asked;
    if (atomic_exchange(&job->stacks.told, asked) != asked)
        tell_in_place(job);
}
