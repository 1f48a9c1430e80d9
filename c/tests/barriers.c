/* The barrier: named, anonymous, both at once, mismatched by identifier or by flag, waited for and tried. */
#define GASNET_SEQ 1
#include "check.h"

static int wait_for(int id, int flags) {
    int code;
    if (me % 2)
        return gasnet_barrier_wait(id, flags);
    while ((code = gasnet_barrier_try(id, flags)) == GASNET_ERR_NOT_READY)
        continue;
    return code;
}

static int pass(int id, int flags) {
    gasnet_barrier_notify(id, flags);
    return wait_for(id, flags);
}

/* A node sees what the others put before they notified. */
static void test_order(int round) {
    gasnet_put_val(next(), at(next(), 64), (gasnet_register_value_t)round, 4);
    CHECK(pass(round, 0) == GASNET_OK);
    CHECK(*(uint32_t *)at(me, 64) == (uint32_t)round);
    CHECK(pass(0, GASNET_BARRIERFLAG_ANONYMOUS) == GASNET_OK);
}

int main(int argc, char **argv) {
    start(&argc, &argv, NULL, 0, GASNET_PAGESIZE);
    for (int round = 1; round < 30; round++)
        test_order(round);
    /* One named notify among anonymous ones matches them. */
    int flags = me ? GASNET_BARRIERFLAG_ANONYMOUS : 0;
    CHECK(pass(7, flags) == GASNET_OK);
    CHECK(pass(-1, 0) == GASNET_OK);
    if (nodes > 1)
        CHECK(pass(me == 0, 0) == GASNET_ERR_BARRIER_MISMATCH);
    CHECK(pass(8, 0) == GASNET_OK);
    /* One notify with MISMATCH is one for all. */
    CHECK(pass(9, me == nodes - 1 ? GASNET_BARRIERFLAG_MISMATCH : 0) == GASNET_ERR_BARRIER_MISMATCH);
    CHECK(pass(10, 0) == GASNET_OK);
    /* A wait with another identifier than the local notify's. */
    gasnet_barrier_notify(11, 0);
    CHECK(wait_for(12, 0) == GASNET_ERR_BARRIER_MISMATCH);
    CHECK(pass(0, GASNET_BARRIERFLAG_ANONYMOUS) == GASNET_OK);
    gasnet_exit(0);
}
