/* A node that answers nothing leaves the others their share: puts to the last node, which polls, come back while all
 * between it and node 0 compute, and have puts and gets of node 0 before them. They compute until node 0 makes a file
 * that says that it had its answers. With GASNET_PROGRESS=poll, since nodes answer by their threads else. */
#define GASNET_SEQ 1
#include <time.h>
#include <unistd.h>

#include "check.h"

enum { SEGMENT = 4 << 20, LARGE = 1 << 20, EACH = 70, ROUNDS = 8, SHORT = 8 };

static const double work = 20; /* seconds for which the nodes in the middle compute at most */
static unsigned char near[LARGE], back[LARGE];
static gasnet_handle_t handles[3 * ROUNDS * GASNET_MAXNODES];
static size_t under_way;
static double begun;
static char over[64]; /* the file's name */

static double now(void) {
    struct timespec time;
    clock_gettime(CLOCK_MONOTONIC, &time);
    return (double)time.tv_sec + (double)time.tv_nsec * 1e-9;
}

/* The seconds of a put to the last node. */
static double put_last(size_t nbytes) {
    double since = now();
    gasnet_put(nodes - 1, at(nodes - 1, 0), near, nbytes);
    return now() - since;
}

/* The slowest of some puts to the last node. */
static double put_some(void) {
    double slowest = put_last(LARGE);
    for (int i = 0; i < EACH; i++) {
        double took = put_last(SHORT);
        slowest = took > slowest ? took : slowest;
    }
    return slowest;
}

static void ask(int node, int round) {
    handles[under_way++] = gasnet_put_nb_bulk(node, at(node, LARGE), near, SHORT);
    if (round < ROUNDS / 2)
        return;
    handles[under_way++] = gasnet_put_nb_bulk(node, at(node, LARGE), near, LARGE);
    handles[under_way++] = gasnet_get_nb_bulk(back, node, at(node, LARGE), LARGE);
}

static void put(void) {
    double slowest = put_some();
    for (int round = 0; round < ROUNDS; round++)
        for (int node = 1; node < nodes - 1; node++) {
            double took;
            ask(node, round);
            took = put_some();
            slowest = took > slowest ? took : slowest;
        }
    CHECK(now() - begun < work);
    CHECK(gasnet_try_syncnb_some(handles, under_way) == GASNET_ERR_NOT_READY);
    fprintf(stderr, "the slowest put to the last node took %.0f us\n", slowest * 1e6);
    FILE *file = fopen(over, "w");
    CHECK(file && !fclose(file));
    gasnet_wait_syncnb_all(handles, under_way);
}

static void compute(void) {
    while (now() - begun < work && access(over, F_OK))
        continue;
}

int main(int argc, char **argv) {
    start(&argc, &argv, NULL, 0, SEGMENT);
    snprintf(over, sizeof over, "out/shares-%s", getenv("GASNET_JOB"));
    barrier();
    begun = now();
    if (!me)
        put();
    else if (me < nodes - 1)
        compute();
    barrier();
    if (!me)
        remove(over);
    gasnet_exit(0);
}
