/* Node 0 makes round trips to node 1, and tells how much of a processor one takes it, in nanoseconds. */
#define GASNET_SEQ 1
#include <sys/resource.h>

#include "check.h"

enum { ASK = 200, BACK = 201, TRIPS = 2000 };

static volatile int backs;

static void ask(gasnet_token_t token) { GASNET_SAFE(gasnet_AMReplyShort0(token, BACK)); }

static void back(gasnet_token_t token) {
    (void)token;
    backs++;
}

static double microseconds(void) {
    struct rusage usage;
    getrusage(RUSAGE_SELF, &usage);
    return (double)(usage.ru_utime.tv_sec + usage.ru_stime.tv_sec) * 1e6 +
           (double)(usage.ru_utime.tv_usec + usage.ru_stime.tv_usec);
}

static void trips(void) {
    const double begun = microseconds();
    for (int i = 0; i < TRIPS; i++) {
        const int seen = backs;
        GASNET_SAFE(gasnet_AMRequestShort0(1, ASK));
        GASNET_BLOCKUNTIL(backs > seen);
    }
    printf("%.0f\n", (microseconds() - begun) * 1000 / TRIPS);
}

int main(int argc, char **argv) {
    gasnet_handlerentry_t table[] = { { ASK, ask }, { BACK, back } };
    start(&argc, &argv, table, COUNT(table), GASNET_PAGESIZE);
    barrier();
    if (!me)
        trips();
    barrier();
    gasnet_exit(0);
}
