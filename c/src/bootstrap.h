/* Who starts a node, and what it says: how many nodes there are, which one this is, and where they are. */
#ifndef GASNETL_BOOTSTRAP_H
#define GASNETL_BOOTSTRAP_H

#include <stdbool.h>
#include <stdint.h>

#include "places.h"

struct gasnetl_start {
    uint16_t nodes, me;
    uint64_t job;        /* the same number on all nodes, another one for another job */
    unsigned neighbours; /* how many nodes this host has; 0 where that isn't known */
    int socket;          /* of the local address, or -1 */
    bool by_pmix;
};

/* Asks the environment, where it has GASNET_RANK: GASNET_NODES, GASNET_JOB, GASNET_SOCKET and GASNET_LIFELINE, as
 * gasnetrun sets them, and where the nodes are (hosts.h); else a process manager by PMIx, where this was built with
 * it; else there is one node, and no variable may tell of others. It reads the places where there are several nodes.
 * False where what it is told is broken: a line on standard error has said what, and what to do. */
bool gasnetl_bootstrap(struct gasnetl_start *start, struct gasnetl_places *places);

/* Tells the process manager, if there is one, that this node ends well. */
void gasnetl_bootstrap_end(const struct gasnetl_start *start);

/* Tells the process manager, if there is one, that the job is to end with this status. */
void gasnetl_bootstrap_abort(const struct gasnetl_start *start, int status);

/* The part of it that asks by PMIx. */
bool gasnetl_pmix_start(struct gasnetl_start *start, struct gasnetl_places *places);
void gasnetl_pmix_end(void);
void gasnetl_pmix_abort(int status);

#endif
