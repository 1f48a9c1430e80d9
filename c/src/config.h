/* What the environment says of how a job runs. */
#ifndef GASNETL_CONFIG_H
#define GASNETL_CONFIG_H

#include <stdbool.h>
#include <stdint.h>

/* Times are in microseconds. */
struct gasnetl_config {
    unsigned drop, twice, swap; /* GASNET_DROP, GASNET_TWICE, GASNET_SWAP: percent of the datagrams that are sent */
    uint64_t seed;              /* GASNET_SEED, 1 where it isn't set */
    uint64_t resend;            /* GASNET_RESEND, in milliseconds: 2000; the longest time between two transmissions */
    unsigned credits;           /* GASNET_CREDITS, 32 where it isn't set */
    uint32_t mtu;               /* GASNET_MTU, in bytes; 0 where it isn't set: the system tells that of each way */
    uint64_t peer_timeout;      /* GASNET_PEER_TIMEOUT, in seconds: 300; 0 for never */
    uint64_t exit_timeout;      /* GASNET_EXIT_TIMEOUT, in seconds: 20 */
    uint64_t end_timeout;       /* GASNET_END_TIMEOUT, in milliseconds: 1000 */
    uint64_t max_segment;       /* GASNET_MAX_SEGSIZE, in bytes, or with K, M, G or T; 0 where it isn't set */
    int spin; /* GASNET_SPIN: how many empty looks a call that waits takes before it sleeps; -1 where it isn't set */
    bool has_thread;   /* GASNET_PROGRESS is `thread`, or isn't set: a thread of the layer serves the peers */
    bool tells_counts; /* GASNET_COUNTS is set: the node tells its counts on standard error at its end */
};

/* Reads the environment. False where a variable is broken: one line on standard error has said which, and what it may
 * be. */
bool gasnetl_config_read(struct gasnetl_config *config);

/* Reads the decimal number of a variable, from `least` to `most`; `other` where it isn't set. False where it is broken:
 * a line on standard error has said so. */
bool gasnetl_config_number(const char *name, uint64_t least, uint64_t most, uint64_t other, uint64_t *value);

#endif
