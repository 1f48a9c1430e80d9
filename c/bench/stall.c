/* Node 1 sleeps for some seconds without a call, directly behind gasnet_attach, or behind the first barrier. How long
 * were the others in what came before: stall attach|barrier [SECONDS]. */
#include "nodes.h"

int main(int argc, char **argv) {
    double begun = seconds(), ready, time = argument(argc, argv, 2, 4);
    int behind_barrier = argc > 1 && !strcmp(argv[1], "barrier");
    start(NULL, 0, GASNET_PAGESIZE);
    if (behind_barrier)
        barrier();
    ready = seconds() - begun;
    if (me == 1)
        usleep((useconds_t)(time * 1e6));
    barrier();
    if (me != 1)
        printf("ready %.3f s\n", ready);
    gasnet_exit(0);
}
