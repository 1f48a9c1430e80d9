/* A node's life in phases: attach, a barrier, work of some seconds without a call, a barrier: phases [SECONDS]. */
#include "nodes.h"

int main(int argc, char **argv) {
    double begun = seconds();
    start(NULL, 0, GASNET_PAGESIZE);
    barrier();
    compute(argument(argc, argv, 1, 3));
    barrier();
    if (!me)
        printf("phases %.3f s\n", seconds() - begun);
    gasnet_exit(0);
}
