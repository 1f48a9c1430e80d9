/* The thread of the layer, which serves the peers while the client computes.
 *
 * While the client polls, or sleeps in a call that waits, the thread has nothing to do: it looks at a clock each few
 * milliseconds. Where the client didn't poll for a millisecond it sleeps on the socket, until a datagram comes or
 * something is due; then it takes the turn and polls. No handler of the client's runs in that: datagrams that run one
 * are kept for the client's next poll. Where all threads of the client's ended it ends the process. As the client comes
 * back its first call wakes the thread once, so that the socket does no more. */
#ifndef GASNETL_PROGRESS_THREAD_H
#define GASNETL_PROGRESS_THREAD_H

#include <semaphore.h>
#include <stdatomic.h>
#include <stdbool.h>
#include <stdint.h>
#include <sys/types.h>

struct gasnetl_job;

struct gasnetl_progress_thread {
    pid_t process;           /* whose thread it is; 0 where there is none. A child that the client forks has none */
    int alarm;               /* an eventfd that wakes it */
    int stat;                /* what Linux says of the process; -1 where it has no /proc */
    atomic_bool ends;        /* it is to end */
    atomic_bool watches;     /* it sleeps on the socket */
    _Atomic uint64_t polled; /* when a thread of the client last polled, in microseconds */
    sem_t out;               /* raised as it takes no turn any more */
    _Atomic uint64_t turns; /* how often it polled, was woken on the socket or by the client, and looked at the clock */
    _Atomic uint64_t wakes, looks;
};

/* Starts the thread. Where the system has none a line on standard error says so, and the node serves its peers in its
 * calls alone. */
void gasnetl_progress_thread_start(struct gasnetl_job *job);

/* Ends it, unless it is the thread that calls: it takes no turn behind that. */
void gasnetl_progress_thread_end(struct gasnetl_job *job);

/* The calling thread, which is the layer's own, takes no turn any more. */
void gasnetl_progress_thread_out(struct gasnetl_job *job);

/* The layer's own thread is about to call exit, which runs the client's functions while the client computes: where they
 * don't return in two seconds the process ends without them. */
void gasnetl_progress_thread_exits(int status);

/* The client's thread polls. */
static inline void gasnetl_progress_thread_polled(struct gasnetl_progress_thread *thread, uint64_t now) {
    atomic_store_explicit(&thread->polled, now, memory_order_relaxed);
}

/* Wakes the thread where it sleeps on the socket: the client is back. */
void gasnetl_progress_thread_wake(struct gasnetl_progress_thread *thread);

static inline void gasnetl_progress_thread_called(struct gasnetl_progress_thread *thread) {
    if (atomic_load_explicit(&thread->watches, memory_order_relaxed))
        gasnetl_progress_thread_wake(thread);
}

/* Tells its counts on standard error. */
void gasnetl_progress_thread_tell(const struct gasnetl_job *job);

#endif
