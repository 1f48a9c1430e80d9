/* What the programs of c/bench/network have in common: a clock, the start of a node, a barrier, and work without a
 * call. */
#ifndef NODES_H
#define NODES_H

#define GASNET_SEQ 1
#include <gasnet.h>
#include <stdio.h>
#include <stdlib.h>
#include <string.h>
#include <time.h>
#include <unistd.h>

enum { MIB = 1 << 20 };

static gasnet_seginfo_t segments[GASNET_MAXNODES];
static int me, nodes;

static inline double seconds(void) {
    struct timespec time;
    clock_gettime(CLOCK_MONOTONIC, &time);
    return (double)time.tv_sec + (double)time.tv_nsec * 1e-9;
}

static inline void start(gasnet_handlerentry_t *table, int entries, size_t segment) {
    GASNET_SAFE(gasnet_init(NULL, NULL));
    GASNET_SAFE(gasnet_attach(table, entries, segment, 0));
    GASNET_SAFE(gasnet_getSegmentInfo(segments, gasnet_nodes()));
    me = gasnet_mynode();
    nodes = gasnet_nodes();
}

static inline void barrier(void) {
    gasnet_barrier_notify(0, GASNET_BARRIERFLAG_ANONYMOUS);
    GASNET_SAFE(gasnet_barrier_wait(0, GASNET_BARRIERFLAG_ANONYMOUS));
}

/* Computes for so long, and makes no call of GASNet. */
static inline void compute(double time) {
    for (double begun = seconds(); seconds() - begun < time;)
        ;
}

static inline void *far(int node, size_t offset) { return (char *)segments[node].addr + offset; }

/* The number of this argument, or another where it isn't there. */
static inline double argument(int argc, char **argv, int index, double other) {
    return argc > index ? atof(argv[index]) : other;
}

static inline int by_value(const void *a, const void *b) {
    double x = *(const double *)a, y = *(const double *)b;
    return (x > y) - (x < y);
}

#endif
