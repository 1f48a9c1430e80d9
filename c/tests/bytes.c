/* What is put, got and sent comes as it was, once, over a network that loses packets: each node has all to do with the
 * next one. At the end node 0 tells how long a round trip of a Short took, on the average of half a second. */
#include <time.h>

#include "check.h"

enum { ASK = 200, BACK, MEDIUM, LONG, SEGMENT = 1 << 20, ROOM = 1 << 18, MESSAGES = 200 };
enum { PUT, TO_GET, GOT, LONGS = 3 }; /* the quarters of a segment: what came by puts, what is there to get, Longs */

static const size_t lengths[] = { 1, 511, 1391, 1392, 1393, 8192, 8193, 100001, ROOM };
static volatile unsigned backs, mediums, longs;

static double seconds(void) {
    struct timespec time;
    clock_gettime(CLOCK_MONOTONIC, &time);
    return (double)time.tv_sec + (double)time.tv_nsec * 1e-9;
}

static void ask(gasnet_token_t token) { GASNET_SAFE(gasnet_AMReplyShort0(token, BACK)); }

static void back(gasnet_token_t token) {
    (void)token;
    backs++;
}

static size_t length_of(int number) { return 1 + (size_t)number * 37 % gasnet_AMMaxMedium(); }

static void take_medium(gasnet_token_t token, void *bytes, size_t length, gasnet_handlerarg_t number) {
    CHECK(length == length_of(number) && is_filled(bytes, length, before(), number));
    mediums++;
    GASNET_SAFE(gasnet_AMReplyShort0(token, BACK));
}

static void take_long(gasnet_token_t token, void *bytes, size_t length, gasnet_handlerarg_t number) {
    CHECK(bytes == at(me, LONGS * ROOM) && length == length_of(number) && is_filled(bytes, length, before(), number));
    longs++;
    GASNET_SAFE(gasnet_AMReplyShort0(token, BACK));
}

static void puts_and_gets(size_t length, int round) {
    static unsigned char bytes[ROOM], other[ROOM];
    fill(bytes, length, me, round);
    fill(at(me, TO_GET * ROOM), length, me, round + 100);
    barrier();
    gasnet_put_bulk(next(), at(next(), PUT * ROOM), bytes, length);
    gasnet_get_bulk(other, next(), at(next(), TO_GET * ROOM), length);
    gasnet_get_bulk(at(me, GOT * ROOM), next(), at(next(), TO_GET * ROOM), length);
    barrier();
    CHECK(is_filled(at(me, PUT * ROOM), length, before(), round));
    CHECK(is_filled(other, length, next(), round + 100) && is_filled(at(me, GOT * ROOM), length, next(), round + 100));
    barrier();
}

/* A Long's place is free again once its answer came. */
static void send_message(int number) {
    static unsigned char bytes[8192];
    size_t length = length_of(number);
    unsigned was = backs;
    fill(bytes, length, me, number);
    if (number % 2)
        GASNET_SAFE(gasnet_AMRequestMedium1(next(), MEDIUM, bytes, length, number));
    else
        GASNET_SAFE(gasnet_AMRequestLong1(next(), LONG, bytes, length, at(next(), LONGS * ROOM), number));
    GASNET_BLOCKUNTIL(backs == was + 1);
}

static double trip(void) {
    unsigned count = 0;
    double begun = seconds(), now = begun;
    for (; now - begun < 0.5; count++) {
        unsigned was = backs;
        GASNET_SAFE(gasnet_AMRequestShort0(next(), ASK));
        GASNET_BLOCKUNTIL(backs == was + 1);
        now = seconds();
    }
    return (now - begun) / count;
}

int main(int argc, char **argv) {
    gasnet_handlerentry_t table[] = { { ASK, ask }, { BACK, back }, { MEDIUM, take_medium }, { LONG, take_long } };
    start(&argc, &argv, table, COUNT(table), SEGMENT);
    for (int i = 0; i < COUNT(lengths); i++)
        puts_and_gets(lengths[i], i);
    for (int i = 0; i < MESSAGES; i++)
        send_message(i);
    barrier();
    CHECK(mediums == MESSAGES / 2 && longs == MESSAGES / 2 && backs == MESSAGES);
    if (!me)
        printf("round trip %.2f us\n", trip() * 1e6);
    barrier();
    gasnet_exit(0);
}
