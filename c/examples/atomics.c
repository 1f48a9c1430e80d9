/* All nodes draw tickets from one counter, until there are none. Each ticket is drawn by one node, which marks it in a
 * table at node 0. */
#define GASNET_SEQ 1
#include <gasnet.h>
#include <stdio.h>

enum { TICKETS = 200 };

/* What stands in the segment of node 0. Nothing but atomics touches the counter; the marks are put. */
struct shared {
    uint64_t counter;
    uint64_t marks[TICKETS];
};

static gex_AD_t domain;

static uint64_t draw(struct shared *shared) {
    uint64_t ticket;
    gex_Event_Wait(gex_AD_OpNB_U64(domain, &ticket, 0, &shared->counter, GEX_OP_FINC, 0, 0, 0));
    return ticket;
}

static void tell(const struct shared *shared) {
    int once = 0;
    for (int i = 0; i < TICKETS; i++)
        once += shared->marks[i] != 0;
    printf("%d of %d tickets are drawn\n", once, TICKETS);
}

int main(int argc, char **argv) {
    gasnet_seginfo_t segments[GASNET_MAXNODES];
    GASNET_SAFE(gasnet_init(&argc, &argv));
    GASNET_SAFE(gasnet_attach(NULL, 0, GASNET_PAGESIZE, 0));
    GASNET_SAFE(gasnet_getSegmentInfo(segments, gasnet_nodes()));
    struct shared *shared = segments[0].addr; /* at node 0 */
    gex_AD_Create(&domain, NULL, GEX_DT_U64, GEX_OP_FINC, 0);
    for (uint64_t ticket = draw(shared); ticket < TICKETS; ticket = draw(shared))
        gasnet_put_nbi_val(0, &shared->marks[ticket], gasnet_mynode() + 1u, sizeof ticket);
    gasnet_wait_syncnbi_puts();
    gasnet_barrier_notify(0, GASNET_BARRIERFLAG_ANONYMOUS);
    GASNET_SAFE(gasnet_barrier_wait(0, GASNET_BARRIERFLAG_ANONYMOUS));
    if (gasnet_mynode() == 0)
        tell(shared);
    gex_AD_Destroy(domain);
    gasnet_exit(0);
}
