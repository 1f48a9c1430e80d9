/* Where the threads of this node wait, told on standard error when somebody asks by SIGUSR2, in GASNet's words: which
 * call, to which node, since when, and what is open to which peer.
 *
 * The signal's handler counts, and no more. A thread that polls looks at the count, and tells of itself; the first one
 * tells of the node too. A thread that waits for a lock looks each tenth of a second. Where no thread polls the layer's
 * own one tells that, within a second. */
#ifndef GASNETL_STACKS_H
#define GASNETL_STACKS_H

#include <stdatomic.h>
#include <stdbool.h>
#include <stdint.h>

#include "gasnet.h"

struct gasnetl_job;

struct gasnetl_stacks {
    atomic_uint asked; /* how often somebody asked */
    atomic_uint told;  /* the last one for which a thread of the client's told of the node */
};

/* What of a thread's calls is told. */
struct gasnetl_stack {
    const char *call; /* the one that it is in, or was in last */
    uint64_t since;   /* when it began to wait in it, in microseconds; 0 where it doesn't wait */
    uint16_t to;      /* the node for which it waits, and 1; 0 where that is all, or isn't known */
    unsigned told;    /* how often it had been asked when it last told */
};

/* Has SIGUSR2 ask, where the client handles it not, and tells gasnetrun so. */
void gasnetl_stacks_start(struct gasnetl_job *job);

/* Tells of the calling thread, which has the turn, and of the node, where no other thread did. */
void gasnetl_stacks_tell(struct gasnetl_job *job);

/* The calling thread begins to wait for a lock. It has no turn, and each time that it looks it tells that it waits,
 * where somebody asked since. */
struct gasnetl_stack gasnetl_stacks_of_lock(void);
void gasnetl_stacks_look_at_lock(struct gasnetl_stack *stack);

/* The layer's own thread looks: where somebody asked, and no thread of the client's told, it tells of the node. */
void gasnetl_stacks_watch(struct gasnetl_job *job);

#endif
