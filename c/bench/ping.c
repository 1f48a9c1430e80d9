/* How fast two nodes are: round trips of a Short, requests in a stream, and blocking puts and gets. One line for each.
 */
#define GASNET_SEQ 1
#include <gasnet.h>
#include <stdio.h>
#include <stdlib.h>
#include <string.h>
#include <time.h>

enum { ASK = 200, BACK = 201, SEGMENT = 32 << 20, TRIPS = 20000, STREAM = 200000 };

static volatile unsigned backs;
static char *far;
static gasnet_seginfo_t segments[GASNET_MAXNODES];

static double seconds(void) {
    struct timespec time;
    clock_gettime(CLOCK_MONOTONIC, &time);
    return (double)time.tv_sec + (double)time.tv_nsec * 1e-9;
}

static void ask(gasnet_token_t token) { GASNET_SAFE(gasnet_AMReplyShort0(token, BACK)); }

static void back(gasnet_token_t token) {
    (void)token;
    backs++;
}

static int by_value(const void *a, const void *b) {
    double x = *(const double *)a, y = *(const double *)b;
    return (x > y) - (x < y);
}

static void trips(void) {
    static double times[TRIPS];
    for (unsigned i = 0; i < TRIPS; i++) {
        double begun = seconds();
        backs = 0;
        GASNET_SAFE(gasnet_AMRequestShort0(1, ASK));
        GASNET_BLOCKUNTIL(backs);
        times[i] = seconds() - begun;
    }
    qsort(times, TRIPS, sizeof *times, by_value);
    printf("short round trip %.2f us (median of %d)\n", times[TRIPS / 2] * 1e6, TRIPS);
}

static void stream(void) {
    double begun = seconds();
    backs = 0;
    for (unsigned i = 0; i < STREAM; i++)
        GASNET_SAFE(gasnet_AMRequestShort0(1, ASK));
    GASNET_BLOCKUNTIL(backs == STREAM);
    printf("short requests %.0f a second\n", STREAM / (seconds() - begun));
}

static void small_puts(void) {
    enum { PUTS = 100000 };
    double begun = seconds();
    for (unsigned i = 0; i < PUTS; i++)
        gasnet_put_nbi_val(1, far + 8 * (i % 1000), i, 8);
    gasnet_wait_syncnbi_all();
    printf("puts of 8 bytes %.0f a second\n", PUTS / (seconds() - begun));
}

static void large(const char *what, char *near, size_t size, int gets) {
    const size_t times = ((size_t)1 << 28) / size;
    double begun = seconds();
    for (size_t i = 0; i < times; i++)
        if (gets)
            gasnet_get_bulk(near, 1, far, size);
        else
            gasnet_put_bulk(1, far, near, size);
    printf("%s %zu KiB %.0f MB/s\n", what, size >> 10, (double)(times * size) / (seconds() - begun) / 1e6);
}

int main(int argc, char **argv) {
    gasnet_handlerentry_t table[] = { { ASK, ask }, { BACK, back } };
    GASNET_SAFE(gasnet_init(&argc, &argv));
    GASNET_SAFE(gasnet_attach(table, 2, SEGMENT, 0));
    GASNET_SAFE(gasnet_getSegmentInfo(segments, gasnet_nodes()));
    if (gasnet_mynode() == 0) {
        static char outside[1 << 20];
        far = segments[1].addr;
        memset(outside, 1, sizeof outside);
        memset(segments[0].addr, 1, sizeof outside);
        trips();
        stream();
        small_puts();
        large("put", outside, 64 << 10, 0);
        large("put", outside, 1 << 20, 0);
        large("put from the segment", segments[0].addr, 64 << 10, 0);
        large("put from the segment", segments[0].addr, 1 << 20, 0);
        large("get", outside, 64 << 10, 1);
        large("get", outside, 1 << 20, 1);
    }
    gasnet_barrier_notify(0, GASNET_BARRIERFLAG_ANONYMOUS);
    GASNET_SAFE(gasnet_barrier_wait(0, GASNET_BARRIERFLAG_ANONYMOUS));
    gasnet_exit(0);
}
