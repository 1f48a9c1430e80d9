/* Node 0 puts so many MiB to node 1, a MiB at a time, 8 of them under way: stream [MIB]. */
#include "nodes.h"

enum { UNDER_WAY = 8 };

int main(int argc, char **argv) {
    int mib = (int)argument(argc, argv, 1, 32);
    start(NULL, 0, UNDER_WAY * MIB);
    barrier();
    if (!me) {
        gasnet_handle_t puts[UNDER_WAY] = { 0 };
        double begun = seconds();
        for (int i = 0; i < mib; i++) {
            size_t place = (size_t)(i % UNDER_WAY) * MIB;
            gasnet_wait_syncnb(puts[i % UNDER_WAY]);
            puts[i % UNDER_WAY] = gasnet_put_nb_bulk(1, far(1, place), far(0, place), MIB);
        }
        gasnet_wait_syncnb_all(puts, UNDER_WAY);
        printf("stream %.3f MB/s\n", mib * (double)MIB / (seconds() - begun) / 1e6);
    }
    barrier();
    gasnet_exit(0);
}
