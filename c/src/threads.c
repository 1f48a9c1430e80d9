#include "threads.h"

#include <linux/membarrier.h>
#include <sys/syscall.h>
#include <unistd.h>

#include "descriptors.h"
#include "errors.h"
#include "exit.h"
#include "job.h"

enum { LAST_TIME = 1000000, LAST_NAP = 1000 }; /* microseconds that the end waits for a turn, and between its tries */

_Thread_local struct gasnetl_thread gasnetl_thread;

static bool make_barrier(int command) { return !syscall(SYS_membarrier, command, 0, 0); }

/* A thread of the client's ends. Its operations are given back, unless the job ends. A function of the client's for its
 * end may call the layer later. */
static void end_thread(void *at) {
    struct gasnetl_job *job = &gasnetl_job;
    struct gasnetl_thread *self = at;
    self->is_known = false;
    if (!job->attached || job->ender)
        return;
    if (self->is_calling)
        gasnetl_stop(GASNETL_MISUSE,
                     "a thread ended within a call of GASNet: by pthread_exit in a handler, or since it "
                     "was cancelled there");
    gasnetl_take_turn(&job->turns);
    gasnetl_op_leave(&job->transfers.ops, self->puts);
    gasnetl_op_leave(&job->transfers.ops, self->gets);
    gasnetl_op_leave(&job->transfers.ops, self->region);
    self->puts = self->gets = self->region = NULL;
    gasnetl_give_turn(&job->turns);
}

bool gasnetl_turns_start(struct gasnetl_turns *turns, bool threaded, bool has_own) {
    turns->threaded = threaded;
    turns->is_biased = !threaded && has_own && make_barrier(MEMBARRIER_CMD_REGISTER_PRIVATE_EXPEDITED);
    turns->is_locked = (threaded || has_own) && !turns->is_biased;
    turns->alarm = threaded ? gasnetl_event_new() : -1;
    atomic_init(&turns->queued, 0);
    atomic_init(&turns->sleepers, 0);
    if (threaded && (turns->alarm < 0 || pthread_key_create(&turns->ends, end_thread)))
        return false;
    return (!threaded && !has_own) || !pthread_mutex_init(&turns->mutex, NULL);
}

bool gasnetl_may_call(const struct gasnetl_turns *turns) { return !turns->first || turns->first == &gasnetl_thread; }

/* ---- Turns of two threads: the client's, and the layer's own. */

/* The client's thread goes inside, unless the layer's wants the turn. */
static inline bool go_inside(struct gasnetl_turns *turns) {
    atomic_store_explicit(&turns->is_inside, true, memory_order_relaxed);
    atomic_signal_fence(memory_order_seq_cst); /* the barrier of the layer's thread orders the two for the processor */
    if (!atomic_load_explicit(&turns->is_wanted, memory_order_acquire))
        return true;
    atomic_store_explicit(&turns->is_inside, false, memory_order_release);
    return false;
}

/* It does, and waits while the layer's thread has the turn. */
static void go_inside_later(struct gasnetl_turns *turns) {
    atomic_fetch_add(&turns->queued, 1);
    do {
        pthread_mutex_lock(&turns->mutex);
        pthread_mutex_unlock(&turns->mutex);
    } while (!go_inside(turns));
    atomic_fetch_sub(&turns->queued, 1);
}

static bool take_from_client(struct gasnetl_turns *turns) {
    if (pthread_mutex_trylock(&turns->mutex))
        return false;
    atomic_store_explicit(&turns->is_wanted, true, memory_order_relaxed);
    if (make_barrier(MEMBARRIER_CMD_PRIVATE_EXPEDITED) &&
        !atomic_load_explicit(&turns->is_inside, memory_order_acquire))
        return true;
    atomic_store_explicit(&turns->is_wanted, false, memory_order_release);
    pthread_mutex_unlock(&turns->mutex);
    return false;
}

static void give_to_client(struct gasnetl_turns *turns) {
    atomic_store_explicit(&turns->is_wanted, false, memory_order_release);
    pthread_mutex_unlock(&turns->mutex);
}

/* ---- Turns. */

bool gasnetl_another_ends(void) {
    const struct gasnetl_thread *ender = gasnetl_job.ender;
    return ender && ender != &gasnetl_thread;
}

void gasnetl_stay_out(struct gasnetl_turns *turns) {
    gasnetl_give_turn(turns);
    if (gasnetl_thread.is_own)
        gasnetl_progress_thread_out(&gasnetl_job);
    for (;;)
        pause();
}

/* Takes the turn, if nobody has it: the calling thread may have it itself, where it is in a signal's handler. */
static bool try_last_turn(struct gasnetl_turns *turns) {
    if (turns->is_biased)
        return gasnetl_thread.is_own ? take_from_client(turns) : !turns->is_inside && go_inside(turns);
    return !turns->is_locked || !pthread_mutex_trylock(&turns->mutex);
}

bool gasnetl_take_last_turn(struct gasnetl_turns *turns) {
    const bool may_have = gasnetl_may_call(turns) || gasnetl_thread.is_own;
    const uint64_t begun = gasnetl_clock();
    atomic_fetch_add(&turns->queued, 1);
    gasnetl_thread.has_turn = false;
    while (may_have && !gasnetl_thread.has_turn && gasnetl_clock() - begun < LAST_TIME)
        if (!(gasnetl_thread.has_turn = try_last_turn(turns)))
            usleep(LAST_NAP);
    atomic_fetch_sub(&turns->queued, 1);
    return gasnetl_thread.has_turn;
}

static void take_locked(struct gasnetl_turns *turns) {
    if (!pthread_mutex_trylock(&turns->mutex))
        return;
    atomic_fetch_add(&turns->queued, 1);
    pthread_mutex_lock(&turns->mutex);
    atomic_fetch_sub(&turns->queued, 1);
}

void gasnetl_take_turn(struct gasnetl_turns *turns) {
    if (turns->is_biased && !go_inside(turns))
        go_inside_later(turns);
    else if (turns->is_locked)
        take_locked(turns);
    gasnetl_thread.has_turn = true;
    if (gasnetl_another_ends())
        gasnetl_stay_out(turns);
}

void gasnetl_give_turn(struct gasnetl_turns *turns) {
    if (!gasnetl_thread.has_turn)
        return;
    gasnetl_thread.has_turn = false;
    if (turns->is_locked)
        pthread_mutex_unlock(&turns->mutex);
    else if (gasnetl_thread.is_own)
        give_to_client(turns);
    else if (turns->is_biased)
        atomic_store_explicit(&turns->is_inside, false, memory_order_release);
}

bool gasnetl_try_turn(struct gasnetl_turns *turns) {
    if (turns->is_locked ? pthread_mutex_trylock(&turns->mutex) : !take_from_client(turns))
        return false;
    gasnetl_thread.has_turn = true;
    if (!gasnetl_another_ends())
        return true;
    gasnetl_give_turn(turns);
    return false;
}

bool gasnetl_is_wanted(struct gasnetl_turns *turns) {
    return turns->threaded && atomic_load_explicit(&turns->queued, memory_order_relaxed) > 0;
}

const char *gasnetl_out_of_turn(void) {
    if (gasnetl_job.is_child)
        return "in a child that the node forked, which is no node";
    return gasnetl_job.ender ? "after gasnet_exit" : "before gasnet_attach";
}

/* Ends the job, since the thread is in a call already. What that one has in hand isn't touched. */
static _Noreturn void stop_within(const char *call) {
    gasnetl_refuse(GASNETL_MISUSE,
                   "%s is called while the thread is in another call of GASNet: by a signal's handler that "
                   "interrupted that, or behind a longjmp out of it",
                   call);
    gasnetl_end_within(&gasnetl_job, GASNETL_MISUSE);
}

static _Noreturn void stop_misuse(const char *call) {
    const bool has_ended = gasnetl_job.ender == &gasnetl_thread;
    if (gasnetl_thread.token && !has_ended)
        gasnetl_stop(GASNETL_MISUSE, "%s is called within a handler, where only a reply is allowed", call);
    if (gasnetl_thread.locks && !has_ended)
        gasnetl_stop(GASNETL_MISUSE, "%s is called while the thread holds a handler-safe lock", call);
    if (gasnetl_thread.sections && !has_ended)
        gasnetl_stop(GASNETL_MISUSE, "%s is called in a section without interrupts", call);
    gasnetl_stop(GASNETL_MISUSE, "%s is called %s", call, gasnetl_out_of_turn());
}

/* Where there are several threads the layer is told as this one ends. */
static void know_thread(struct gasnetl_thread *self) {
    if (gasnetl_job.turns.threaded)
        pthread_setspecific(gasnetl_job.turns.ends, self);
    self->stack.told = gasnetl_job.stacks.asked;
    self->is_known = true;
}

struct gasnetl_job *gasnetl_enter(const char *call) {
    struct gasnetl_thread *self = &gasnetl_thread;
    if (self->token || self->locks || self->sections)
        stop_misuse(call);
    if (self->is_calling && gasnetl_job.ender != self)
        stop_within(call);
    self->is_calling = true;
    self->stack.call = call;
    self->stack.since = 0;
    self->stack.to = 0;
    if (!self->is_known)
        know_thread(self);
    if (!gasnetl_may_call(&gasnetl_job.turns) && gasnetl_job.initialised)
        gasnetl_stop(GASNETL_MISUSE,
                     "%s is called by another thread than the one that called gasnet_init: define GASNET_PAR before "
                     "gasnet.h is included (in Fortran let one thread refer to coarrays)",
                     call);
    gasnetl_take_turn(&gasnetl_job.turns); /* it doesn't come back where another thread ended the job */
    if (!gasnetl_job.attached)
        stop_misuse(call);
    return &gasnetl_job;
}

void gasnetl_leave(struct gasnetl_job *job) {
    gasnetl_network_flush(&job->network);
    gasnetl_give_turn(&job->turns);
    gasnetl_thread.is_calling = false;
}

void gasnetl_sleep(struct gasnetl_turns *turns, int socket, uint64_t microseconds) {
    struct pollfd ready[2] = { { .fd = socket, .events = POLLIN }, { .fd = turns->alarm, .events = POLLIN } };
    bool had_turn = gasnetl_thread.has_turn;
    atomic_fetch_add(&turns->sleepers, 1);
    gasnetl_give_turn(turns);
    gasnetl_sleep_on(ready, 2, microseconds);
    if (ready[1].revents && !gasnetl_event_lower(turns->alarm))
        gasnetl_stop_lost();
    if (had_turn && gasnetl_job.ender == &gasnetl_thread)
        gasnetl_take_last_turn(turns);
    else if (had_turn)
        gasnetl_take_turn(turns);
    atomic_fetch_sub(&turns->sleepers, 1);
}

void gasnetl_wake(struct gasnetl_turns *turns) {
    if (turns->threaded && atomic_load_explicit(&turns->sleepers, memory_order_relaxed) &&
        !gasnetl_event_raise(turns->alarm))
        gasnetl_stop_lost();
}
