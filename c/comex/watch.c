#include "watch.h"

#include <pthread.h>
#include <signal.h>
#include <time.h>

#include "state.h"

enum { LOOK_EACH = 1000000 }; /* nanoseconds between two looks at the calls */

_Atomic unsigned comexg_calls;
static atomic_bool ends;
static pthread_t watch;

static unsigned calls(void) { return atomic_load_explicit(&comexg_calls, memory_order_relaxed); }

static void *run(void *nothing) {
    const struct timespec pause = { 0, LOOK_EACH };
    while (!ends) {
        const unsigned before = calls();
        nanosleep(&pause, NULL);
        if (before % 2 == 0 && calls() == before)
            GASNET_BLOCKUNTIL(calls() != before || ends);
    }
    return nothing;
}

/* The thread takes no signal: those are the program's. */
void comexg_watch_start(void) {
    sigset_t all, old;
    sigfillset(&all);
    ends = false;
    pthread_sigmask(SIG_BLOCK, &all, &old);
    const int code = pthread_create(&watch, NULL, run, NULL);
    pthread_sigmask(SIG_SETMASK, &old, NULL);
    if (code)
        comexg_die("the system has no thread");
}

void comexg_watch_end(void) {
    ends = true;
    pthread_join(watch, NULL);
}
