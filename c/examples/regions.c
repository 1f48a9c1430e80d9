/* Each node has four threads. Each thread puts numbers to the next node in an access region of its own, and waits for
 * its puts alone, by the region's handle. */
#define GASNET_PAR 1
#include <gasnet.h>
#include <pthread.h>
#include <stdio.h>

enum { THREADS = 4, NUMBERS = 100 };

static gasnet_seginfo_t segments[GASNET_MAXNODES];
static int indexes[THREADS] = { 0, 1, 2, 3 };

static void *run(void *index) {
    const int thread = *(int *)index, next = (gasnet_mynode() + 1) % gasnet_nodes();
    uint64_t *place = (uint64_t *)segments[next].addr + thread * NUMBERS;
    gasnet_begin_nbi_accessregion();
    for (uint64_t i = 0; i < NUMBERS; i++)
        gasnet_put_nbi_val((gasnet_node_t)next, place + i, i + 1, sizeof i);
    gasnet_wait_syncnb(gasnet_end_nbi_accessregion());
    return NULL;
}

static uint64_t sum(const uint64_t *numbers) {
    uint64_t sum = 0;
    for (int i = 0; i < THREADS * NUMBERS; i++)
        sum += numbers[i];
    return sum;
}

int main(int argc, char **argv) {
    pthread_t threads[THREADS];
    GASNET_SAFE(gasnet_init(&argc, &argv));
    GASNET_SAFE(gasnet_attach(NULL, 0, GASNET_PAGESIZE, 0));
    GASNET_SAFE(gasnet_getSegmentInfo(segments, gasnet_nodes()));
    for (int i = 0; i < THREADS; i++)
        pthread_create(&threads[i], NULL, run, &indexes[i]);
    for (int i = 0; i < THREADS; i++)
        pthread_join(threads[i], NULL);
    gasnet_barrier_notify(0, GASNET_BARRIERFLAG_ANONYMOUS);
    GASNET_SAFE(gasnet_barrier_wait(0, GASNET_BARRIERFLAG_ANONYMOUS));
    printf("node %d has numbers of %d threads, whose sum is %llu\n", gasnet_mynode(), THREADS,
           (unsigned long long)sum(segments[gasnet_mynode()].addr));
    gasnet_exit(0);
}
