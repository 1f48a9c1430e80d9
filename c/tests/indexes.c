/* Handlers that take any index: the layer's own ones, 251 to 254, are the last that they get, so collectives and
 * operations on words go on beside as many as the argument says. */
#define GASNET_SEQ 1
#include "check.h"

static int runs;

static void run(gasnet_token_t token) {
    (void)token;
    runs++;
}

int main(int argc, char **argv) {
    static gasnet_handlerentry_t table[128];
    int entries = argc > 1 ? atoi(argv[1]) : 2;
    gex_AD_t words;
    uint64_t sum, one = 1;
    for (int i = 0; i < entries; i++)
        table[i].fnptr = run;
    start(&argc, &argv, table, entries, GASNET_PAGESIZE);
    for (int i = 0; i < entries; i++)
        CHECK(table[i].index >= 128 && (table[i].index < 251 || table[i].index > 254));
    gasnet_coll_reduce_all(NULL, &sum, &one, GEX_DT_U64, 1, GEX_OP_ADD, 0);
    CHECK(sum == (uint64_t)nodes);
    gex_AD_Create(&words, NULL, GEX_DT_U64, GEX_OP_INC | GEX_OP_GET, 0);
    gex_Event_Wait(gex_AD_OpNB_U64(words, NULL, 0, at(0, 0), GEX_OP_INC, 0, 0, 0));
    barrier();
    gex_Event_Wait(gex_AD_OpNB_U64(words, &sum, 0, at(0, 0), GEX_OP_GET, 0, 0, 0));
    CHECK(sum == (uint64_t)nodes);
    for (int i = 0; i < entries; i++)
        GASNET_SAFE(gasnet_AMRequestShort0((gasnet_node_t)next(), table[i].index));
    GASNET_BLOCKUNTIL(runs == entries);
    barrier();
    gasnet_exit(0);
}
