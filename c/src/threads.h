/* The client's threads, and the layer's own. They take turns: one of them at a time is inside the layer. A call that
 * waits gives its turn away while it sleeps.
 *
 * Where the client has one thread (GASNET_SEQ) and the layer none, there is no lock. Where both have one, the client's
 * pays for no atomic operation: it says that it is inside, and then looks whether the layer's thread wants the turn.
 * That one says so, has the system put a barrier into each running thread of the process (membarrier), and then looks
 * whether the client is inside. So one of the two sees the other. */
#ifndef GASNETL_THREADS_H
#define GASNETL_THREADS_H

#include <pthread.h>
#include <stdatomic.h>
#include <stdbool.h>
#include <stdint.h>

#include "gasnet.h"
#include "operations.h"
#include "patience.h"
#include "stacks.h"

struct gasnetl_job;

struct gasnetl_turns {
    bool threaded;                      /* the client has several threads */
    const struct gasnetl_thread *first; /* of GASNET_SEQ: the thread of gasnet_init, which alone may call; else NULL */
    bool is_locked;                     /* all turns are ordered by the mutex */
    bool is_biased; /* the client's thread has it where it is inside, the layer's where it wants it and the client isn't
                     */
    atomic_bool is_inside;
    atomic_bool is_wanted; /* the layer's thread holds the mutex meanwhile */
    pthread_mutex_t mutex;
    atomic_uint queued;   /* how many threads wait for a turn */
    atomic_uint sleepers; /* how many sleep without one, until something comes */
    int alarm;            /* an eventfd that wakes them; -1 where there is none */
    pthread_key_t ends;   /* where there are several: has a thread give back its operations as it ends */
};

/* What the layer keeps of a thread. */
struct gasnetl_thread {
    gasnet_token_t token; /* of the handler that it runs, or NULL */
    gasnet_hsl_t *locks;  /* the lock that it took last, and still holds */
    unsigned sections;    /* 1 inside a section without interrupts */
    bool has_turn;
    bool is_calling;                  /* it is in a call of the layer's, from gasnetl_enter to gasnetl_leave */
    bool is_known;                    /* the layer is told as it ends, where there are several */
    bool is_own;                      /* it is the layer's (progress_thread.h) */
    struct gasnetl_stack stack;       /* what is told of the call that it is in */
    struct gasnetl_patience patience; /* how long it looks for datagrams before it sleeps */
    bool ends_itself;                 /* the layer ends the job: no signal of the client's interrupted a call */
    struct gasnetl_op *puts, *gets;   /* its implicit operations, or NULL; pieces may lead to them still as it ends */
    struct gasnetl_op *region;        /* the access region that it has begun */
};

/* The calling thread. */
extern _Thread_local struct gasnetl_thread gasnetl_thread;

/* Makes ready for one thread of the client's, or for many, and for one of the layer's where it has one. False where the
 * system refuses. */
bool gasnetl_turns_start(struct gasnetl_turns *turns, bool threaded, bool has_own);

/* A call that polls or may wait begins: it has the turn until gasnetl_leave. The job is attached, and the thread is in
 * no other call, no handler, no section without interrupts, and holds no handler-safe lock; else the job is ended with
 * a line that names the call. */
struct gasnetl_job *gasnetl_enter(const char *call);
void gasnetl_leave(struct gasnetl_job *job);

/* The same by parts: takes the turn, and gives it away where the thread has it. */
void gasnetl_take_turn(struct gasnetl_turns *turns);
void gasnetl_give_turn(struct gasnetl_turns *turns);

/* Takes the turn, for the layer's own thread, where no thread has it, and none ended the job. */
bool gasnetl_try_turn(struct gasnetl_turns *turns);

/* Takes the turn for the end of the process. False where it isn't had in a second: whoever has it never gives it. */
bool gasnetl_take_last_turn(struct gasnetl_turns *turns);

/* When a call comes that finds the job not attached, as a line says it. */
const char *gasnetl_out_of_turn(void);

/* Whether the calling thread may make the layer's calls: in GASNET_SEQ the one that called gasnet_init alone. */
bool gasnetl_may_call(const struct gasnetl_turns *turns);

/* Whether another thread ends the process. */
bool gasnetl_another_ends(void);

/* Waits for the end of the process, which another thread brings. The thread gives away the turn that it has. */
_Noreturn void gasnetl_stay_out(struct gasnetl_turns *turns);

/* Whether another thread of the client's waits for a turn. */
bool gasnetl_is_wanted(struct gasnetl_turns *turns);

/* Sleeps without the turn until a datagram may have come, another thread saw progress, or the time is over. A thread
 * that had no turn has none behind it. */
void gasnetl_sleep(struct gasnetl_turns *turns, int socket, uint64_t microseconds);

/* Wakes the threads that sleep. */
void gasnetl_wake(struct gasnetl_turns *turns);

#endif
