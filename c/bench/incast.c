/* All other nodes put so many MiB each to node 0 at once, which waits in a barrier: incast [MIB]. */
#include "nodes.h"

int main(int argc, char **argv) {
    size_t mib = (size_t)argument(argc, argv, 1, 8);
    start(NULL, 0, 64 << 20);
    memset(segments[me].addr, me, MIB);
    barrier();
    double begun = seconds();
    for (size_t i = 0; me && i < mib; i++)
        gasnet_put_nbi_bulk(0, far(0, (size_t)me % 64 * MIB), segments[me].addr, MIB);
    gasnet_wait_syncnbi_all();
    barrier();
    if (!me)
        printf("incast %.4f s\n", seconds() - begun);
    gasnet_exit(0);
}
