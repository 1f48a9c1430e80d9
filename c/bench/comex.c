/* How fast ComEx's calls are from process 0 to process 1, which waits in comex_barrier: put, get, accumulate, of bytes
 * that lie together and of 32 rows, and fetch-and-add. Puts and accumulates have a fence behind each. One line for each
 * call and size: its time in microseconds, the least of a few parts. It is linked with any libcomex. */
#include <comex.h>
#include <mpi.h>
#include <stdio.h>
#include <stdlib.h>
#include <string.h>
#include <time.h>

enum { MOST = 1 << 20, ROWS = 32, PARTS = 5 };

static void *far[2];
static char *near;
static int far_stride, near_stride, count[2];

static double seconds(void) {
    struct timespec time;
    clock_gettime(CLOCK_MONOTONIC, &time);
    return (double)time.tv_sec + (double)time.tv_nsec * 1e-9;
}

static void fence(void) { comex_fence_proc(1, COMEX_GROUP_WORLD); }

static void put(int bytes) {
    comex_put(near, far[1], bytes, 1, COMEX_GROUP_WORLD);
    fence();
}

static void get(int bytes) { comex_get(far[1], near, bytes, 1, COMEX_GROUP_WORLD); }

static void add(int bytes) {
    double scale = 1.5;
    comex_acc(COMEX_ACC_DBL, &scale, near, far[1], bytes, 1, COMEX_GROUP_WORLD);
    fence();
}

/* Rows of so many bytes all together, which are twice as far apart as they are long. */
static void shape(int bytes) {
    count[0] = bytes / ROWS;
    count[1] = ROWS;
    near_stride = far_stride = 2 * count[0];
}

static void put_rows(int bytes) {
    shape(bytes);
    comex_puts(near, &near_stride, far[1], &far_stride, count, 1, 1, COMEX_GROUP_WORLD);
    fence();
}

static void get_rows(int bytes) {
    shape(bytes);
    comex_gets(far[1], &far_stride, near, &near_stride, count, 1, 1, COMEX_GROUP_WORLD);
}

static void add_rows(int bytes) {
    double scale = 1.5;
    shape(bytes);
    comex_accs(COMEX_ACC_DBL, &scale, near, &near_stride, far[1], &far_stride, count, 1, 1, COMEX_GROUP_WORLD);
    fence();
}

static void fetch_and_add(int bytes) {
    long old;
    (void)bytes;
    comex_rmw(COMEX_FETCH_AND_ADD_LONG, &old, far[1], 1, 1, COMEX_GROUP_WORLD);
}

static double part(void (*does)(int), int bytes, int times) {
    const double begun = seconds();
    for (int i = 0; i < times; i++)
        does(bytes);
    return (seconds() - begun) / times * 1e6;
}

static void measure(const char *name, void (*does)(int), int bytes) {
    const int times = bytes >= 262144 ? 20 : bytes >= 16384 ? 60 : 300;
    double least = part(does, bytes, times / 10 + 1);
    for (int i = 0; i < PARTS; i++) {
        const double time = part(does, bytes, times);
        least = time < least || !i ? time : least;
    }
    printf("%s %d %.2f us\n", name, bytes, least);
}

int main(int argc, char **argv) {
    int me;
    MPI_Init(&argc, &argv);
    comex_init();
    comex_group_rank(COMEX_GROUP_WORLD, &me);
    comex_malloc(far, 2 * MOST, COMEX_GROUP_WORLD);
    near = comex_malloc_local(2 * MOST);
    memset(near, 0, 2 * MOST);
    memset(far[me], 0, 2 * MOST);
    comex_barrier(COMEX_GROUP_WORLD);
    for (int bytes = 8; me == 0 && bytes <= MOST; bytes *= bytes < 4096 ? 8 : 16) {
        measure("put", put, bytes);
        measure("get", get, bytes);
        measure("accumulate", add, bytes);
        if (bytes < 512)
            continue;
        measure("put-rows", put_rows, bytes);
        measure("get-rows", get_rows, bytes);
        measure("accumulate-rows", add_rows, bytes);
    }
    if (me == 0)
        measure("fetch-and-add", fetch_and_add, 8);
    comex_barrier(COMEX_GROUP_WORLD);
    comex_free_local(near);
    comex_free(far[me], COMEX_GROUP_WORLD);
    comex_finalize();
    MPI_Finalize();
    return 0;
}
