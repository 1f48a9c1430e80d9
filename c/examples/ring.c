#include <gasnet.h>
#include <stdio.h>

int main(int argc, char **argv) {
    gasnet_seginfo_t segments[GASNET_MAXNODES];
    GASNET_SAFE(gasnet_init(&argc, &argv));
    GASNET_SAFE(gasnet_attach(NULL, 0, GASNET_PAGESIZE, 0));
    GASNET_SAFE(gasnet_getSegmentInfo(segments, gasnet_nodes()));
    int me = gasnet_mynode(), next = (me + 1) % gasnet_nodes();
    gasnet_put(next, segments[next].addr, &me, sizeof me);
    gasnet_barrier_notify(0, GASNET_BARRIERFLAG_ANONYMOUS);
    GASNET_SAFE(gasnet_barrier_wait(0, GASNET_BARRIERFLAG_ANONYMOUS));
    printf("node %d has %d from the node before it\n", me, *(int *)segments[me].addr);
    gasnet_exit(0);
}
