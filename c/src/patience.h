/* How long a call that waits looks for datagrams before it sleeps.
 *
 * A spin, which is a row of empty looks, saves the system's time to wake a thread. It pays where something comes during
 * it, and where nobody else wants the processor. So a thread sleeps at the first empty look
 * - where its last spins ended asleep. After a sleep that a spin could have saved it spins once more; where that ends
 *   asleep too, twice as many such sleeps come before the next one;
 * - for a while, where the system took the processor from it during a spin and gave it to others (getrusage counts
 *   involuntary switches). The time doubles where that happens again soon. */
#ifndef GASNETL_PATIENCE_H
#define GASNETL_PATIENCE_H

#include <stdbool.h>
#include <stdint.h>

enum {
    GASNETL_PATIENCE_FAILED = 3,         /* spins in a row that end asleep, behind which none is made */
    GASNETL_PATIENCE_SHORT = 200,        /* microseconds of a wait that a spin could have ended */
    GASNETL_PATIENCE_MOST_WANTED = 1024, /* short sleeps before the next spin, at most */
    GASNETL_PATIENCE_TAKEN = 1000,       /* microseconds between two looks that say that the processor was taken */
    GASNETL_PATIENCE_PAUSE = 10000,      /* microseconds without a spin behind that, at first and at most */
    GASNETL_PATIENCE_MOST_PAUSE = 1000000
};

/* Of one thread; all 0 at first. Times are in microseconds. */
struct gasnetl_patience {
    uint64_t begun, looked; /* the first empty look of this wait, and the last one */
    bool spins, has_slept;  /* in this wait */
    unsigned failed;        /* spins in a row that ended asleep */
    unsigned quick, wanted; /* short sleeps since the last spin, and how many come before the next one */
    uint64_t until, pause;  /* none is made before, since the processor was taken; how long that is */
    long switches;          /* the involuntary ones, when they were last counted */
};

/* A look was empty, the `turn`-th in a row, from 1, of a wait that makes at most `most` of them in a spin. Whether to
 * sleep now. */
bool gasnetl_patience_is_over(struct gasnetl_patience *patience, unsigned turn, unsigned most, uint64_t now);

/* A look found something, behind `turn` empty ones. */
void gasnetl_patience_came(struct gasnetl_patience *patience, unsigned turn, uint64_t now);

#endif
