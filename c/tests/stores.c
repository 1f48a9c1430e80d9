/* A thread stores into a Long's place as soon as the Long's handler told it to, and before its delivery is over. None
 * of these stores is lost, whether a request or a reply of another node brought the Long. */
#define GASNET_PAR 1
#include <pthread.h>
#include <sched.h>
#include <stdatomic.h>

#include "check.h"

enum { COME = 128, GIVE = 129, SEEN = 130, LENGTH = 8192, TURNS = 2000, SEGMENT = 1 << 20, BYTE = 100, STORED = 0xee };

static atomic_int came, stored, seen;
static unsigned char payload[LENGTH];

static volatile unsigned char *place(void) { return at(me, BYTE); }

static void come(gasnet_token_t token, void *bytes, size_t length, gasnet_handlerarg_t turn) {
    (void)token;
    CHECK(length == LENGTH && is_all(bytes, length, 1));
    came = turn;
}

static void give(gasnet_token_t token, gasnet_handlerarg_t turn) {
    gasnet_node_t asker;
    GASNET_SAFE(gasnet_AMGetMsgSource(token, &asker));
    GASNET_SAFE(gasnet_AMReplyLong1(token, COME, payload, LENGTH, at(asker, 0), turn));
}

static void is_seen(gasnet_token_t token) {
    (void)token;
    seen++;
}

/* Stores in each turn, as soon as the handler said that it ran. */
static void *store(void *unused) {
    for (int turn = 1; turn <= 2 * TURNS; turn++) {
        while (came != turn)
            sched_yield();
        *place() = STORED;
        stored = turn;
    }
    return unused;
}

/* Takes the Long of a turn, which is on its way, and looks at the byte once its delivery is over. */
static bool is_kept(int turn) {
    while (stored != turn)
        GASNET_SAFE(gasnet_AMPoll());
    GASNET_SAFE(gasnet_AMPoll());
    return *place() == STORED;
}

static void take_all(gasnet_node_t from) {
    pthread_t thread;
    int lost = 0;
    CHECK(!pthread_create(&thread, NULL, store, NULL));
    for (int turn = 1; turn <= TURNS; turn++) {
        lost += !is_kept(turn);
        GASNET_SAFE(gasnet_AMRequestShort0(from, SEEN));
    }
    for (int turn = TURNS + 1; turn <= 2 * TURNS; turn++) {
        GASNET_SAFE(gasnet_AMRequestShort1(from, GIVE, turn));
        lost += !is_kept(turn);
    }
    pthread_join(thread, NULL);
    if (lost)
        fprintf(stderr, "%d of %d stores into a Long's place were lost\n", lost, 2 * TURNS);
    CHECK(lost == 0);
}

static void give_all(gasnet_node_t to) {
    for (int turn = 1; turn <= TURNS; turn++) {
        GASNET_SAFE(gasnet_AMRequestLong1(to, COME, payload, LENGTH, at(to, 0), turn));
        GASNET_BLOCKUNTIL(seen == turn);
    }
}

int main(int argc, char **argv) {
    gasnet_handlerentry_t table[] = { { COME, come }, { GIVE, give }, { SEEN, is_seen } };
    memset(payload, 1, LENGTH);
    start(&argc, &argv, table, COUNT(table), SEGMENT);
    CHECK(nodes == 2);
    if (me == 0)
        give_all(1);
    else
        take_all(0);
    barrier();
    gasnet_exit(0);
}
