/* What puts and gets of many pieces cost, beside the same bytes in one piece: for each length of a piece the best times
 * of some rounds, in microseconds, and the ratio. `indexed` are pieces in no order. */
#define GASNET_SEQ 1
#include <gasnet.h>
#include <stdio.h>
#include <stdlib.h>
#include <string.h>
#include <time.h>

enum { BYTES = 160000, STEP = 3, ROUNDS = 30, MOST = BYTES / 8, SEGMENT = 4 << 20 };
enum kind { ONE, STRIDED, INDEXED, KINDS };

static gasnet_seginfo_t segments[GASNET_MAXNODES];
static char near[BYTES];
static void *far_places[MOST], *near_places[MOST];

static double microseconds(void) {
    struct timespec time;
    clock_gettime(CLOCK_MONOTONIC, &time);
    return (double)time.tv_sec * 1e6 + (double)time.tv_nsec * 1e-3;
}

static void move(enum kind kind, int is_put, size_t length, size_t count) {
    char *far = segments[1].addr;
    const size_t there[] = { STEP * length }, here[] = { length }, counts[] = { length, count };
    if (kind == ONE && is_put)
        gasnet_put_bulk(1, far, near, length * count);
    else if (kind == ONE)
        gasnet_get_bulk(near, 1, far, length * count);
    else if (kind == STRIDED && is_put)
        gasnet_puts_bulk(1, far, there, near, here, counts, 1);
    else if (kind == STRIDED)
        gasnet_gets_bulk(near, here, 1, far, there, counts, 1);
    else if (is_put)
        gasnet_puti_bulk(1, count, far_places, length, count, near_places, length);
    else
        gasnet_geti_bulk(count, near_places, length, 1, count, far_places, length);
}

static double best(enum kind kind, int is_put, size_t length, size_t count) {
    double least = 1e12;
    for (int round = 0; round < ROUNDS; round++) {
        double begun = microseconds();
        move(kind, is_put, length, count);
        double took = microseconds() - begun;
        least = took < least ? took : least;
    }
    return least;
}

/* Places in no order, on both sides. */
static void make_places(size_t length, size_t count) {
    unsigned state = 1;
    for (size_t i = 0; i < count; i++) {
        far_places[i] = (char *)segments[1].addr + STEP * length * i;
        near_places[i] = near + length * i;
    }
    for (size_t i = count - 1; i; i--) {
        state = state * 1664525 + 1013904223;
        size_t other = state % (i + 1);
        void *far = far_places[i], *own = near_places[i];
        far_places[i] = far_places[other];
        near_places[i] = near_places[other];
        far_places[other] = far;
        near_places[other] = own;
    }
}

int main(int argc, char **argv) {
    static const size_t lengths[] = { 8, 24, 64, 256, 1024, 2048, 4096, 5000, 8000, 8192, 16000, 40000 };
    GASNET_SAFE(gasnet_init(&argc, &argv));
    GASNET_SAFE(gasnet_attach(NULL, 0, SEGMENT, 0));
    GASNET_SAFE(gasnet_getSegmentInfo(segments, gasnet_nodes()));
    for (int i = 0; gasnet_mynode() == 0 && i < (int)(sizeof lengths / sizeof *lengths); i++)
        for (int is_put = 1; is_put >= 0; is_put--) {
            const size_t length = lengths[i], count = BYTES / length;
            make_places(length, count);
            double one = best(ONE, is_put, length, count), strided = best(STRIDED, is_put, length, count),
                   indexed = best(INDEXED, is_put, length, count);
            printf("%s of %zu times %zu bytes: one piece %.0f, strided %.0f (%.1f times), indexed %.0f (%.1f times)\n",
                   is_put ? "put" : "get", count, length, one, strided, strided / one, indexed, indexed / one);
        }
    gasnet_barrier_notify(0, GASNET_BARRIERFLAG_ANONYMOUS);
    GASNET_SAFE(gasnet_barrier_wait(0, GASNET_BARRIERFLAG_ANONYMOUS));
    gasnet_exit(0);
}
