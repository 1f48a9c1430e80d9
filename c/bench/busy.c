/* All other nodes put 1 MiB to node 0, which computes for some seconds without a call: busy [SECONDS]. */
#include "nodes.h"

int main(int argc, char **argv) {
    double time = argument(argc, argv, 1, 5);
    start(NULL, 0, 64 << 20);
    barrier();
    double begun = seconds();
    if (!me)
        compute(time);
    else
        gasnet_put_bulk(0, far(0, (size_t)me % 64 * MIB), segments[me].addr, MIB);
    if (me)
        printf("put %.4f s\n", seconds() - begun);
    barrier();
    gasnet_exit(0);
}
