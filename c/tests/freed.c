/* What gasnet_c_free and gasnet_c_coll_free give back: all memory that the proved library took, also where requests,
 * transfers and a collective are open. LeakSanitizer tells what is left where there is one; malloc's own count does
 * everywhere. Handles that were freed are dead, and are used again. */
#include <gasnet_c.h>
#include <malloc.h>
#include <stdio.h>
#include <stdlib.h>
#include <string.h>

enum { SEGMENT = 1 << 16, NODES = 5, ME = 3, ROUNDS = 200, WARM = 10 };

#define CHECK(condition)                                                                                               \
    do {                                                                                                               \
        if (!(condition)) {                                                                                            \
            fprintf(stderr, "%s:%d: %s\n", __FILE__, __LINE__, #condition);                                            \
            exit(1);                                                                                                   \
        }                                                                                                              \
    } while (0)

static uint8_t *segment;
static uint8_t buffer[GASNET_C_ROOM];

/* Something of each kind is open as the node is freed: a request, a put of two chunks, a word's operation, a barrier.
 */
static void open_some(gasnet_c_node *node) {
    static const uint8_t payload[100];
    const gasnet_c_ask ask = { .payload = { payload, sizeof payload },
                               .args = { &(const int32_t){ 7 }, 1 },
                               .category = 1,
                               .to = 1,
                               .handler = 200 };
    CHECK(gasnet_c_request(node, 1, &ask, buffer, sizeof buffer).code == GASNET_C_ACCEPTED);
    const gasnet_c_move put = { .len = GASNET_C_PAYLOAD + 1, .kind = 0, .to = 2 };
    CHECK(gasnet_c_begin(node, 2, &put).code == GASNET_C_HANDLE);
    CHECK(gasnet_c_tick(node, 3, buffer, sizeof buffer).code == GASNET_C_CHUNK);
    const gasnet_c_operation add = { .op = GASNET_C_OP_ADD, .a = 1, .to = 4 };
    CHECK(gasnet_c_atomic(node, 4, &add, buffer, sizeof buffer).code == GASNET_C_ACCEPTED);
    CHECK(gasnet_c_notify(node, 5, 0, 1).code == GASNET_C_OK);
}

static void one_round(uint16_t nodes, uint16_t credits) {
    const gasnet_c_setup setup = {
        .job = 5, .segment = SEGMENT, .resend = 100, .nodes = nodes, .me = ME, .credits = credits
    };
    gasnet_c_node node = { 0 };
    gasnet_c_collectives collectives = { 0 };
    memset(segment, 0, SEGMENT);
    CHECK(gasnet_c_new(&node, &setup, (gasnet_c_memory){ segment }) == 0 && node.live);
    CHECK(gasnet_c_new(&node, &setup, (gasnet_c_memory){ segment }) == 3);
    CHECK(gasnet_c_coll_new(&node, &collectives, 0, 64) == 0 && collectives.live);
    CHECK(gasnet_c_coll_new(&node, &collectives, 0, 64) == 3);
    const gasnet_c_collective gather = { .from = SEGMENT / 2, .len = 8, .kind = 2 };
    CHECK(gasnet_c_coll_start(&node, &collectives, 0, &gather).code == GASNET_C_OK);
    CHECK(gasnet_c_coll_step(&node, &collectives, 0, buffer, sizeof buffer).code == GASNET_C_ACCEPTED);
    open_some(&node);
    gasnet_c_coll_free(&collectives);
    gasnet_c_coll_free(&collectives);
    CHECK(!collectives.live);
    gasnet_c_free(&node);
    gasnet_c_free(&node);
    CHECK(!node.live && gasnet_c_tick(&node, 9, buffer, sizeof buffer).code == GASNET_C_DEAD);
}

/* A setup beyond a limit, and an area that is none, take nothing. */
static void refused_round(void) {
    gasnet_c_setup setup = { .job = 5, .segment = SEGMENT, .resend = 100, .nodes = NODES, .me = NODES, .credits = 4 };
    gasnet_c_node node = { 0 };
    gasnet_c_collectives collectives = { 0 };
    CHECK(gasnet_c_new(&node, &setup, (gasnet_c_memory){ segment }) == 1 && !node.live);
    setup.me = ME;
    memset(segment, 0, SEGMENT);
    CHECK(gasnet_c_new(&node, &setup, (gasnet_c_memory){ segment }) == 0);
    CHECK(gasnet_c_coll_new(&node, &collectives, SEGMENT, 64) == 1 && !collectives.live);
    gasnet_c_free(&node);
}

static void run_rounds(int count) {
    for (int i = 0; i < count; i++) {
        one_round(NODES, 4);
        refused_round();
    }
    one_round(GASNET_C_MAX_NODES, 1);
}

int main(void) {
    CHECK((segment = malloc(SEGMENT)));
    run_rounds(WARM);
    const size_t before = mallinfo2().uordblks;
    run_rounds(ROUNDS);
    const size_t behind = mallinfo2().uordblks;
    if (behind > before)
        fprintf(stderr, "%zu bytes before, %zu behind %d rounds\n", before, behind, ROUNDS);
    CHECK(behind <= before);
    free(segment);
    return 0;
}
