/* Node 0 puts a MiB to node 1 so many times, and tells the median rate in MB/s. */
#define GASNET_SEQ 1
#include <time.h>

#include "check.h"

enum { MIB = 1 << 20, PUTS = 200 };

static double seconds(void) {
    struct timespec time;
    clock_gettime(CLOCK_MONOTONIC, &time);
    return (double)time.tv_sec + (double)time.tv_nsec * 1e-9;
}

static int compare(const void *one, const void *other) {
    const double a = *(const double *)one, b = *(const double *)other;
    return (a > b) - (a < b);
}

static void measure(void) {
    static double times[PUTS];
    for (int i = 0; i < PUTS; i++) {
        const double begun = seconds();
        gasnet_put_bulk(1, at(1, 0), at(0, 0), MIB);
        times[i] = seconds() - begun;
    }
    qsort(times, PUTS, sizeof *times, compare);
    printf("%.0f\n", MIB / times[PUTS / 2] / 1e6);
}

int main(int argc, char **argv) {
    start(&argc, &argv, NULL, 0, MIB);
    barrier();
    if (!me)
        measure();
    barrier();
    gasnet_exit(0);
}
