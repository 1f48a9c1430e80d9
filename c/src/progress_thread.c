#include "progress_thread.h"

#include <errno.h>
#include <fcntl.h>
#include <inttypes.h>
#include <pthread.h>
#include <signal.h>
#include <stdio.h>
#include <stdlib.h>
#include <string.h>
#include <time.h>
#include <unistd.h>

#include "descriptors.h"
#include "errors.h"
#include "job.h"

enum {
    QUIET = 1000,     /* microseconds without a poll of the client, behind which the thread serves */
    LEAST_NAP = 1000, /* microseconds between two looks at the clock, while the client polls */
    MOST_NAP = 5000,
    MOST_SLEEP = 500000, /* microseconds on the socket: peers that are silent are asked so often */
    EACH = 16,           /* the datagrams of a poll: the client may wait for it */
    MOST_POLLS = 32,     /* of a turn */
    LAST = 2             /* seconds that the end waits for the thread */
};

/* ---- Its sleep. */

/* Sleeps until the alarm, a datagram where there is a socket, or until the time is over. Whether the socket has
 * something. */
static bool sleep_on(const struct gasnetl_progress_thread *thread, int socket, uint64_t microseconds) {
    struct pollfd ready[2] = { { .fd = thread->alarm, .events = POLLIN }, { .fd = socket, .events = POLLIN } };
    if (gasnetl_sleep_on(ready, 2, microseconds) <= 0)
        return false;
    if (ready[0].revents && !gasnetl_event_lower(thread->alarm))
        gasnetl_stop_lost();
    return ready[1].revents != 0;
}

static void count(_Atomic uint64_t *counter) { atomic_fetch_add_explicit(counter, 1, memory_order_relaxed); }

/* Sleeps until the client may be at work; longer each time that it isn't. */
static void nap(struct gasnetl_progress_thread *thread, uint64_t *time) {
    sleep_on(thread, -1, *time);
    count(&thread->looks);
    *time = *time < MOST_NAP / 2 ? *time * 2 : MOST_NAP;
}

/* ---- Its turns. */

/* Whether the client polls, or sleeps in a call: then it serves by itself. */
static bool client_serves(struct gasnetl_job *job) {
    uint64_t polled = atomic_load_explicit(&job->thread.polled, memory_order_relaxed), now = gasnetl_clock();
    return atomic_load_explicit(&job->turns.sleepers, memory_order_relaxed) || now < polled + QUIET;
}

/* Takes the turn where the client doesn't serve. */
static bool take_turn(struct gasnetl_job *job) {
    if (client_serves(job) || !gasnetl_try_turn(&job->turns))
        return false;
    if (!client_serves(job))
        return true;
    gasnetl_give_turn(&job->turns);
    return false;
}

/* In which time something may be due. */
static uint64_t time_to_due(const struct gasnetl_job *job) {
    const struct gasnetl_progress *progress = &job->progress;
    uint64_t due = job->recovery.next_look;
    if (progress->has_notifications || job->collectives.first || job->transfers.asks_again != GASNETL_NONE)
        return LEAST_NAP;
    if (!progress->out || due > progress->now + MOST_SLEEP)
        return MOST_SLEEP;
    return due > progress->now ? due - progress->now : 0;
}

/* Serves the peers, while datagrams come and the client doesn't wait for the turn. Whether any came. */
static bool serve(struct gasnetl_job *job) {
    bool came = false, more = true;
    job->progress.keeps = true;
    for (int polls = 0; more && polls < MOST_POLLS; polls++) {
        bool some = gasnetl_poll(job, EACH);
        came = came || some;
        more = some && !atomic_load_explicit(&job->turns.queued, memory_order_relaxed);
    }
    job->progress.keeps = false;
    count(&job->thread.turns);
    return came;
}

/* Why the thread is awake: it begins, the client called, the time is over, or the socket has something. */
enum why { BEGINS, CALLED, DUE, READY };

/* Has the turn: serves the peers, where it is awake for that, gives the turn away, and sleeps until it is needed again.
 * What is in the socket and no poll takes doesn't wake it before its next look. */
static enum why watch(struct gasnetl_job *job, enum why why) {
    struct gasnetl_progress_thread *thread = &job->thread;
    bool came = (why == DUE || why == READY) && serve(job);
    bool is_deaf = why == READY && !came;
    const int socket = is_deaf ? -1 : job->network.socket;
    uint64_t time = is_deaf ? LEAST_NAP : time_to_due(job);
    atomic_store_explicit(&thread->watches, true, memory_order_relaxed);
    gasnetl_leave(job);
    bool is_ready = sleep_on(thread, socket, time);
    count(&thread->wakes);
    if (!atomic_exchange(&thread->watches, false))
        return CALLED;
    return is_ready ? READY : DUE;
}

/* ---- Its look at the client's threads. */

/* Whether none is left, by what Linux says of the process: the first one is a zombie, and this one is the other. */
static bool is_left_alone(const struct gasnetl_progress_thread *thread) {
    char text[1024], state = 0;
    int threads = 0;
    ssize_t length = pread(thread->stat, text, sizeof text - 1, 0);
    text[length > 0 ? length : 0] = 0;
    const char *behind_name = strrchr(text, ')');
    return behind_name &&
           sscanf(behind_name, ") %c%*d%*d%*d%*d%*d%*u%*u%*u%*u%*u%*u%*u%*d%*d%*d%*d%d", &state, &threads) == 2 &&
           state == 'Z' && threads == 2;
}

/* Each half second: where none of the client's is left the process ends, as it would have without this one. */
static void end_where_left(struct gasnetl_progress_thread *thread, uint64_t *next) {
    uint64_t now = gasnetl_clock();
    if (now < *next)
        return;
    *next = now + MOST_SLEEP;
    if (is_left_alone(thread))
        exit(0);
}

static bool is_over(const struct gasnetl_job *job) { return job->thread.ends || job->ender; }

static void *run(void *at) {
    struct gasnetl_job *job = at;
    uint64_t time = LEAST_NAP, next_look = 0;
    enum why why = BEGINS;
    gasnetl_thread.is_own = true;
    while (!is_over(job)) {
        end_where_left(&job->thread, &next_look);
        gasnetl_stacks_watch(job);
        if (why != CALLED && take_turn(job)) {
            why = watch(job, why);
            time = LEAST_NAP;
        } else {
            nap(&job->thread, &time);
            why = BEGINS;
        }
    }
    gasnetl_progress_thread_out(job);
    return NULL;
}

/* ---- Its beginning and its end. */

/* Signals are the client's, but for those that a fault of the thread's own raises. */
static void block_signals(sigset_t *before) {
    sigset_t all;
    sigfillset(&all);
    for (int i = 0; i < 5; i++)
        sigdelset(&all, (const int[]){ SIGSEGV, SIGBUS, SIGFPE, SIGILL, SIGTRAP }[i]);
    pthread_sigmask(SIG_BLOCK, &all, before);
}

/* Makes a thread for which nobody waits. Answers an error's number; 0 where it runs. */
static int create(void *(*work)(void *), void *at) {
    pthread_attr_t detached;
    pthread_t made;
    sigset_t before;
    pthread_attr_init(&detached);
    pthread_attr_setdetachstate(&detached, PTHREAD_CREATE_DETACHED);
    block_signals(&before);
    int error = pthread_create(&made, &detached, work, at);
    pthread_sigmask(SIG_SETMASK, &before, NULL);
    pthread_attr_destroy(&detached);
    return error;
}

void gasnetl_progress_thread_start(struct gasnetl_job *job) {
    struct gasnetl_progress_thread *thread = &job->thread;
    int error = 0;
    thread->alarm = gasnetl_event_new();
    thread->stat = gasnetl_above_streams(open("/proc/self/stat", O_RDONLY | O_CLOEXEC));
    if (thread->alarm < 0 || sem_init(&thread->out, 0, 0))
        error = errno;
    gasnetl_progress_thread_polled(thread, gasnetl_clock());
    if (!error)
        error = create(run, job);
    if (!error)
        thread->process = getpid();
    else
        gasnetl_refuse(GASNET_ERR_RESOURCE,
                       "the system has no thread (%s): the node serves its peers in its calls alone", strerror(error));
}

void gasnetl_progress_thread_out(struct gasnetl_job *job) { sem_post(&job->thread.out); }

void gasnetl_progress_thread_wake(struct gasnetl_progress_thread *thread) {
    if (atomic_exchange(&thread->watches, false) && !gasnetl_event_raise(thread->alarm))
        gasnetl_stop_lost();
}

void gasnetl_progress_thread_end(struct gasnetl_job *job) {
    struct gasnetl_progress_thread *thread = &job->thread;
    struct timespec until;
    if (gasnetl_thread.is_own || thread->process != getpid())
        return;
    thread->process = 0;
    thread->ends = true;
    if (!gasnetl_event_raise(thread->alarm))
        return;
    clock_gettime(CLOCK_MONOTONIC, &until);
    until.tv_sec += LAST;
    while (sem_clockwait(&thread->out, CLOCK_MONOTONIC, &until) && errno == EINTR)
        continue;
}

static void *end_late(void *status) {
    sleep(LAST);
    _exit((int)(intptr_t)status);
}

void gasnetl_progress_thread_exits(int status) { create(end_late, (void *)(intptr_t)status); }

void gasnetl_progress_thread_tell(const struct gasnetl_job *job) {
    const struct gasnetl_progress_thread *thread = &job->thread;
    fprintf(stderr,
            "gasnet: node %u: thread turns %" PRIu64 ", wakes %" PRIu64 ", looks %" PRIu64 ", kept %" PRIu64
            ", dropped %" PRIu64 "\n",
            job->me, thread->turns, thread->wakes, thread->looks, job->kept.kept, job->kept.dropped);
}
