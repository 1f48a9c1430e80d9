/* A job of many nodes: barriers, a message round the ring, a sum of all, broadcasts of some roots, and an exchange in
 * which each node puts 16 KiB into the segment of each other one. Node 0 prints how long each part took, and how much
 * memory it has; nothing is promised of that. */
#define GASNET_SEQ 1
#include "check.h"

#include <time.h>

enum { EACH = 16384, ROUNDS = 3, LENGTH = 3000, RING = 128 };

static int came = -1;

static void ring(gasnet_token_t token, gasnet_handlerarg_t number) {
    (void)token;
    came = number;
}

static double seconds(void) {
    struct timespec time;
    clock_gettime(CLOCK_MONOTONIC, &time);
    return (double)time.tv_sec + (double)time.tv_nsec * 1e-9;
}

/* Prints what has taken how long since then, and answers the time. */
static double tell(const char *what, double begun) {
    const double now = seconds();
    if (!me)
        printf("%s: %.1f ms\n", what, (now - begun) * 1e3);
    return now;
}

/* The number of the line of /proc/self/status, in KiB. */
static long memory(const char *name) {
    char line[200];
    long kib = 0;
    FILE *file = fopen("/proc/self/status", "r");
    while (file && fgets(line, sizeof line, file))
        if (!strncmp(line, name, strlen(name)))
            kib = strtol(line + strlen(name), NULL, 10);
    if (file)
        fclose(file);
    return kib;
}

static void barriers(void) {
    for (int i = 0; i < ROUNDS; i++)
        barrier();
}

/* A number goes from node 0 round the ring, and each node adds one. */
static void go_round(void) {
    if (!me)
        GASNET_SAFE(gasnet_AMRequestShort1((gasnet_node_t)next(), RING, 1));
    GASNET_BLOCKUNTIL(came >= 0);
    CHECK(came == (me ? me : nodes));
    if (me)
        GASNET_SAFE(gasnet_AMRequestShort1((gasnet_node_t)next(), RING, came + 1));
}

static void sum(void) {
    uint64_t given[2] = { (uint64_t)me + 1, (uint64_t)me * (uint64_t)me }, got[2] = { 0, 0 };
    const uint64_t n = (uint64_t)nodes;
    gex_Event_Wait(gex_Coll_ReduceToAllNB(NULL, got, given, GEX_DT_U64, 8, 2, GEX_OP_ADD, NULL, NULL, 0));
    CHECK(got[0] == n * (n + 1) / 2);
    CHECK(got[1] == (n - 1) * n * (2 * n - 1) / 6);
}

static void broadcasts(void) {
    static unsigned char given[LENGTH], got[LENGTH];
    const int roots[] = { 0, nodes - 1 };
    for (int i = 0; i < COUNT(roots); i++) {
        const int root = roots[i];
        if (me == root)
            fill(given, LENGTH, root, i);
        gex_Event_Wait(gex_Coll_BroadcastNB(NULL, (gex_Rank_t)root, got, given, LENGTH, 0));
        CHECK(is_filled(got, LENGTH, root, i));
    }
}

/* Each node's part of a segment has what that node put there. */
static void exchange(void) {
    static unsigned char bytes[EACH];
    fill(bytes, EACH, me, 0);
    for (int k = 0; k < nodes; k++) {
        const int to = (me + k) % nodes;
        gasnet_put_nbi_bulk((gasnet_node_t)to, at(to, (size_t)me * EACH), bytes, EACH);
    }
    gasnet_wait_syncnbi_puts();
    barrier();
    for (int node = 0; node < nodes; node++)
        CHECK(is_filled(at(me, (size_t)node * EACH), EACH, node, 0));
}

int main(int argc, char **argv) {
    gasnet_handlerentry_t table[] = { { RING, (void (*)(void))ring } };
    double begun = seconds();
    start(&argc, &argv, table, COUNT(table), (uintptr_t)GASNET_MAXNODES * EACH);
    begun = tell("start", begun);
    if (!me)
        printf("memory at the start: %ld KiB\n", memory("VmRSS:"));
    barriers();
    begun = tell("barriers", begun);
    go_round();
    begun = tell("ring", begun);
    sum();
    begun = tell("sum", begun);
    broadcasts();
    begun = tell("broadcasts", begun);
    exchange();
    tell("exchange", begun);
    if (!me)
        printf("memory at the end: %ld KiB\n%d nodes were right\n", memory("VmRSS:"), nodes);
    barrier();
    gasnet_exit(0);
}
