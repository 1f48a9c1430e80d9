/* The watch: a thread that runs handlers while the program computes, or waits in a call of MPI.
 *
 * The layer below has a thread that moves bytes then; handlers of a client's run in the client's calls alone. So this
 * thread looks each millisecond whether the program made a call of ComEx. Where it made none, and is in none, the watch
 * polls until the next one, and sleeps on the socket meanwhile. */
#ifndef COMEXG_WATCH_H
#define COMEXG_WATCH_H

#include <stdatomic.h>

/* Odd while the program is in a call that polls. */
extern _Atomic unsigned comexg_calls;

void comexg_watch_start(void);
void comexg_watch_end(void);

/* Begins and ends a call that polls. */
static inline void comexg_enter(void) { atomic_fetch_add_explicit(&comexg_calls, 1, memory_order_relaxed); }
static inline void comexg_leave(void) { atomic_fetch_add_explicit(&comexg_calls, 1, memory_order_relaxed); }

#endif
