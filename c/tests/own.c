/* Handlers that keep a count outside of the segment: each request to the node itself finds it one further, and tells
 * so in its reply; requests of another node, whose handler keeps a count of its own, go in between. */
#define GASNET_SEQ 1
#include "check.h"

enum { SHORT = 200, MEDIUM, LONG, OTHER, TOLD, OTHER_TOLD, REQUESTS = 1000, PLACE = 64 };

static int own_count, told, other_count, others_told;
static int last = -1;

static void tell_count(gasnet_token_t token, int before) {
    GASNET_SAFE(gasnet_AMReplyShort2(token, TOLD, before, ++own_count));
}

static void count_short(gasnet_token_t token, int before) { tell_count(token, before); }

static void count_medium(gasnet_token_t token, void *buf, size_t nbytes, int before) {
    CHECK(is_filled(buf, nbytes, me, before));
    tell_count(token, before);
}

static void count_long(gasnet_token_t token, void *buf, size_t nbytes, int before) {
    CHECK(buf == at(me, PLACE) && is_filled(buf, nbytes, me, before));
    tell_count(token, before);
}

static void count_told(gasnet_token_t token, int before, int count) {
    (void)token;
    CHECK(before == last + 1 && count == before + 1);
    last = before;
    told++;
}

static void count_other(gasnet_token_t token) { GASNET_SAFE(gasnet_AMReplyShort1(token, OTHER_TOLD, ++other_count)); }

static void other_told(gasnet_token_t token, int count) {
    (void)token;
    CHECK(1 <= count && count <= REQUESTS);
    others_told++;
}

static gasnet_handlerentry_t table[] = {
    { SHORT, (void (*)())count_short }, { MEDIUM, (void (*)())count_medium }, { LONG, (void (*)())count_long },
    { OTHER, (void (*)())count_other }, { TOLD, (void (*)())count_told },     { OTHER_TOLD, (void (*)())other_told },
};

/* A request to the node itself, of one of three categories; its reply's handler ran as the call returns. */
static void ask_self(int before) {
    unsigned char bytes[40];
    fill(bytes, sizeof bytes, me, before);
    switch (before % 3) {
    case 0:
        GASNET_SAFE(gasnet_AMRequestShort1(me, SHORT, before));
        break;
    case 1:
        GASNET_SAFE(gasnet_AMRequestMedium1(me, MEDIUM, bytes, sizeof bytes, before));
        break;
    default:
        GASNET_SAFE(gasnet_AMRequestLong1(me, LONG, bytes, sizeof bytes, at(me, PLACE), before));
    }
}

int main(int argc, char **argv) {
    start(&argc, &argv, table, COUNT(table), GASNET_PAGESIZE);
    barrier();
    for (int i = 0; i < REQUESTS; i++) {
        ask_self(i);
        CHECK(told == i + 1 && own_count == i + 1);
        if (nodes > 1)
            GASNET_SAFE(gasnet_AMRequestShort0(next(), OTHER));
    }
    GASNET_BLOCKUNTIL(nodes == 1 || others_told == REQUESTS);
    barrier();
    CHECK(nodes == 1 || other_count == REQUESTS);
    gasnet_exit(0);
}
