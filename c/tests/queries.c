/* Job control and queries, in the order of the specification, with what each call is answered out of turn. */
#define GASNET_SEQ 1
#include "check.h"

static void handler(gasnet_token_t token) { (void)token; }

static void test_errors(void) {
    CHECK(!strcmp(gasnet_ErrorName(GASNET_OK), "GASNET_OK"));
    CHECK(!strcmp(gasnet_ErrorName(GASNET_ERR_NOT_INIT), "GASNET_ERR_NOT_INIT"));
    CHECK(!strcmp(gasnet_ErrorName(GASNET_ERR_RESOURCE), "GASNET_ERR_RESOURCE"));
    CHECK(!strcmp(gasnet_ErrorName(GASNET_ERR_BAD_ARG), "GASNET_ERR_BAD_ARG"));
    CHECK(!strcmp(gasnet_ErrorName(GASNET_ERR_NOT_READY), "GASNET_ERR_NOT_READY"));
    CHECK(!strcmp(gasnet_ErrorName(GASNET_ERR_BARRIER_MISMATCH), "GASNET_ERR_BARRIER_MISMATCH"));
    CHECK(!strcmp(gasnet_ErrorName(-5), "no such error"));
    CHECK(*gasnet_ErrorDesc(GASNET_ERR_RESOURCE));
}

static void test_before(void) {
    CHECK(gasnet_attach(NULL, 0, GASNET_PAGESIZE, 0) == GASNET_ERR_NOT_INIT);
    CHECK(gasnet_getSegmentInfo(segments, 1) == GASNET_ERR_NOT_INIT);
    CHECK(gasnet_AMPoll() == GASNET_ERR_NOT_INIT);
    CHECK(gasnet_AMRequestShort0(0, 128) == GASNET_ERR_NOT_INIT);
    CHECK(gasnet_set_waitmode(GASNET_WAIT_SPIN) == GASNET_ERR_NOT_INIT);
}

static void test_tables(void) {
    gasnet_handlerentry_t low[] = { { 127, handler } }, twice[] = { { 130, handler }, { 130, handler } },
                          none[] = { { 131, NULL } };
    static gasnet_handlerentry_t many[129];
    for (int i = 0; i < 129; i++)
        many[i].fnptr = handler;
    CHECK(gasnet_attach(low, 1, GASNET_PAGESIZE, 0) == GASNET_ERR_BAD_ARG);
    CHECK(gasnet_attach(twice, 2, GASNET_PAGESIZE, 0) == GASNET_ERR_BAD_ARG);
    CHECK(gasnet_attach(none, 1, GASNET_PAGESIZE, 0) == GASNET_ERR_BAD_ARG);
    CHECK(gasnet_attach(many, 129, GASNET_PAGESIZE, 0) == GASNET_ERR_RESOURCE);
    CHECK(gasnet_attach(NULL, 1, GASNET_PAGESIZE, 0) == GASNET_ERR_BAD_ARG);
    CHECK(gasnet_attach(NULL, 0, GASNET_PAGESIZE + 1, 0) == GASNET_ERR_BAD_ARG);
    CHECK(gasnet_attach(NULL, 0, gasnet_getMaxLocalSegmentSize() + GASNET_PAGESIZE, 0) == GASNET_ERR_BAD_ARG);
}

static void test_segments(uintptr_t own) {
    CHECK(segments[me].size == own);
    for (int node = 0; node < nodes; node++)
        CHECK(segments[node].addr && segments[node].size == GASNET_PAGESIZE * (uintptr_t)(node + 1));
    memset(segments[me].addr, me, own);
    barrier();
    int last = nodes - 1;
    unsigned char byte;
    gasnet_get(&byte, last, at(last, segments[last].size - 1), 1);
    CHECK(byte == last);
}

int main(int argc, char **argv) {
    static gasnet_handlerentry_t full[128];
    for (int i = 0; i < 128; i++)
        full[i].fnptr = handler;
    test_errors();
    test_before();
    CHECK(gasnet_init(&argc, &argv) == GASNET_OK);
    CHECK(gasnet_init(&argc, &argv) == GASNET_ERR_NOT_INIT);
    me = gasnet_mynode();
    nodes = gasnet_nodes();
    CHECK(me < nodes && nodes <= GASNET_MAXNODES);
    CHECK(gasnet_getMaxLocalSegmentSize() >= 1 << 20 && gasnet_getMaxLocalSegmentSize() % GASNET_PAGESIZE == 0);
    CHECK(gasnet_getMaxGlobalSegmentSize() <= gasnet_getMaxLocalSegmentSize());
    CHECK(!gasnet_getenv("GASNET_NO_SUCH_VARIABLE") && gasnet_getenv("PATH"));
    test_tables();
    uintptr_t own = GASNET_PAGESIZE * (uintptr_t)(me + 1); /* nodes may differ */
    CHECK(gasnet_attach(full, 128, own, UINTPTR_MAX / 2) == GASNET_ERR_RESOURCE);
    CHECK(nodes == 1 || gasnet_attach(full, 128, own + GASNET_PAGESIZE, 0) == GASNET_ERR_BAD_ARG);
    CHECK(gasnet_attach(full, 128, own, 1 << 20) == GASNET_OK); /* a call that failed may be made again */
    CHECK(gasnet_attach(NULL, 0, own, 0) == GASNET_ERR_NOT_INIT);
    CHECK(gasnet_getSegmentInfo(NULL, 1) == GASNET_ERR_BAD_ARG);
    CHECK(gasnet_getSegmentInfo(segments, nodes) == GASNET_OK);
    test_segments(own);
    CHECK(gasnet_set_waitmode(GASNET_WAIT_SPIN) == GASNET_OK && gasnet_set_waitmode(7) == GASNET_ERR_BAD_ARG);
    barrier();
    CHECK(gasnet_set_waitmode(GASNET_WAIT_BLOCK) == GASNET_OK);
    barrier();
    CHECK(gasnet_set_waitmode(GASNET_WAIT_SPINBLOCK) == GASNET_OK);
    barrier();
    return 0; /* as gasnet_exit(0) */
}
