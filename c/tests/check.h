/* What the tests have in common: a check that ends the job, the start of a node, and a barrier. */
#ifndef CHECK_H
#define CHECK_H

#include <gasnet.h>
#include <stdbool.h>
#include <stdio.h>
#include <stdlib.h>
#include <string.h>

#define CHECK(condition)                                                                                               \
    do {                                                                                                               \
        if (!(condition)) {                                                                                            \
            fprintf(stderr, "%s:%d: node %d: %s\n", __FILE__, __LINE__, gasnet_mynode(), #condition);                  \
            gasnet_exit(1);                                                                                            \
        }                                                                                                              \
    } while (0)

#define COUNT(table) ((int)(sizeof(table) / sizeof *(table)))

static gasnet_seginfo_t segments[GASNET_MAXNODES];
static int me, nodes;

static inline void start(int *argc, char ***argv, gasnet_handlerentry_t *table, int entries, uintptr_t segment) {
    GASNET_SAFE(gasnet_init(argc, argv));
    GASNET_SAFE(gasnet_attach(table, entries, segment, 0));
    me = gasnet_mynode();
    nodes = gasnet_nodes();
    GASNET_SAFE(gasnet_getSegmentInfo(segments, nodes));
}

static inline void barrier(void) {
    gasnet_barrier_notify(0, GASNET_BARRIERFLAG_ANONYMOUS);
    CHECK(gasnet_barrier_wait(0, GASNET_BARRIERFLAG_ANONYMOUS) == GASNET_OK);
}

static inline unsigned char *at(int node, size_t offset) { return (unsigned char *)segments[node].addr + offset; }

static inline int next(void) { return (me + 1) % nodes; }

static inline int before(void) { return (me + nodes - 1) % nodes; }

/* A byte that differs by who, where and when it was written. */
static inline unsigned char mark(int who, size_t place, int when) {
    return (unsigned char)(who * 37 + (int)(place * 11) + (int)(place >> 8) + when * 101);
}

static inline void fill(unsigned char *bytes, size_t length, int who, int when) {
    for (size_t i = 0; i < length; i++)
        bytes[i] = mark(who, i, when);
}

static inline bool is_filled(const unsigned char *bytes, size_t length, int who, int when) {
    for (size_t i = 0; i < length; i++)
        if (bytes[i] != mark(who, i, when))
            return false;
    return true;
}

static inline bool is_all(const unsigned char *bytes, size_t length, unsigned char byte) {
    for (size_t i = 0; i < length; i++)
        if (bytes[i] != byte)
            return false;
    return true;
}

#endif
