/* Nothing stays of a client's threads that ended: each of many has implicit operations of its own. */
#define GASNET_PAR 1
#include <malloc.h>
#include <pthread.h>

#include "check.h"

enum { THREADS = 4000 };

static void *put(void *nothing) {
    unsigned char byte = 1;
    gasnet_put_nbi(next(), at(next(), 0), &byte, 1);
    gasnet_get_nbi(&byte, next(), at(next(), 1), 1);
    gasnet_wait_syncnbi_gets(); /* the put may be open as the thread ends */
    return nothing;
}

static void run_threads(int count) {
    for (int i = 0; i < count; i++) {
        pthread_t thread;
        CHECK(!pthread_create(&thread, NULL, put, NULL) && !pthread_join(thread, NULL));
    }
}

int main(int argc, char **argv) {
    start(&argc, &argv, NULL, 0, GASNET_PAGESIZE);
    run_threads(THREADS / 4);
    const size_t before_all = mallinfo2().uordblks;
    run_threads(THREADS);
    const size_t behind_all = mallinfo2().uordblks;
    if (behind_all > before_all + 8 * THREADS)
        fprintf(stderr, "node %d: %zu bytes before, %zu behind %d threads\n", me, before_all, behind_all, THREADS);
    CHECK(behind_all <= before_all + 8 * THREADS);
    barrier();
    gasnet_exit(0);
}
