/* Handler-safe locks of one thread: taken, tried, given back in order, within handlers too; and sections. */
#define GASNET_SEQ 1
#include "check.h"

enum { ADD = 128, ADDED = 129 };

static gasnet_hsl_t still = GASNET_HSL_INITIALIZER, made;
static int sum, added;

static void add(gasnet_token_t token, gasnet_handlerarg_t number) {
    gasnet_hsl_lock(&still);
    gasnet_hsl_lock(&made);
    sum += number;
    gasnet_hsl_unlock(&made);
    gasnet_hsl_unlock(&still);
    gasnet_hold_interrupts(); /* passed over in a handler */
    GASNET_SAFE(gasnet_AMReplyShort0(token, ADDED));
}

static void is_added(gasnet_token_t token) {
    (void)token;
    CHECK(gasnet_hsl_trylock(&still) == GASNET_OK);
    added++;
    gasnet_hsl_unlock(&still);
}

int main(int argc, char **argv) {
    gasnet_handlerentry_t table[] = { { ADD, add }, { ADDED, is_added } };
    gasnet_hsl_init(&made);
    start(&argc, &argv, table, 2, GASNET_PAGESIZE);
    for (int i = 0; i < 100; i++)
        for (int node = 0; node < nodes; node++)
            GASNET_SAFE(gasnet_AMRequestShort1((gasnet_node_t)node, ADD, i));
    GASNET_BLOCKUNTIL(added == 100 * nodes);
    barrier();
    CHECK(sum == nodes * 4950);
    gasnet_hold_interrupts();
    sum = 0;
    gasnet_resume_interrupts();
    CHECK(gasnet_hsl_trylock(&still) == GASNET_OK);
    CHECK(gasnet_hsl_trylock(&made) == GASNET_OK);
    gasnet_hsl_unlock(&made);
    gasnet_hsl_unlock(&still);
    gasnet_hsl_destroy(&made);
    gasnet_hsl_destroy(&still);
    barrier();
    gasnet_exit(0);
}
