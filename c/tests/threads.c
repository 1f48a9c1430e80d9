/* Four threads of each node at once (GASNET_PARSYNC): requests, puts, gets, pieces, locks and
 * operations on one word, each thread with what is its own. */
#define GASNET_PARSYNC 1
#include <pthread.h>
#include <stdatomic.h>

#include "check.h"

enum {
    THREADS = 4,
    ADD = 128,
    ADDED = 129,
    WAKE = 130,
    TURNS = 100,
    PART = 20000,
    SEGMENT = 1 << 20,
    WORD = SEGMENT - 8,
    SCATTERED = 700000, /* behind the parts of eight nodes */
    WIDTH = 8,
    COLUMNS = 400
};

static gex_AD_t words;
static gasnet_hsl_t lock = GASNET_HSL_INITIALIZER;
static int sum, added[THREADS]; /* under the lock */
static atomic_int woken[THREADS];

static void add(gasnet_token_t token, gasnet_handlerarg_t thread, gasnet_handlerarg_t number) {
    gasnet_hsl_lock(&lock);
    sum += number;
    gasnet_hsl_unlock(&lock);
    GASNET_SAFE(gasnet_AMReplyShort1(token, ADDED, thread));
}

static void is_added(gasnet_token_t token, gasnet_handlerarg_t thread) {
    (void)token;
    gasnet_hsl_lock(&lock);
    added[thread]++;
    gasnet_hsl_unlock(&lock);
}

static void wake(gasnet_token_t token, gasnet_handlerarg_t thread) {
    (void)token;
    woken[thread]++;
}

static int added_of(int thread) {
    gasnet_hsl_lock(&lock);
    int count = added[thread];
    gasnet_hsl_unlock(&lock);
    return count;
}

static void ask(int thread) {
    for (int i = 0; i < TURNS; i++)
        GASNET_SAFE(gasnet_AMRequestShort2((gasnet_node_t)((me + i) % nodes), ADD, thread, i));
    GASNET_BLOCKUNTIL(added_of(thread) == TURNS);
}

/* Each thread's implicit operations are its own, and so are its regions. */
static void move(int thread) {
    static unsigned char parts[THREADS][2][PART];
    unsigned char *from = parts[thread][0], *to = parts[thread][1];
    size_t place = (size_t)(me * THREADS + thread) * PART % (SEGMENT - PART);
    for (int turn = 0; turn < 5; turn++) {
        fill(from, PART, me, thread + turn);
        gasnet_put_nbi(next(), at(next(), place), from, PART);
        gasnet_wait_syncnbi_puts();
        gasnet_begin_nbi_accessregion();
        gasnet_get_nbi_bulk(to, next(), at(next(), place), PART);
        gasnet_wait_syncnb(gasnet_end_nbi_accessregion());
        CHECK(is_filled(to, PART, me, thread + turn));
    }
}

/* Pieces of all threads go packed, beside one another's. */
static void scatter(int thread) {
    static unsigned char parts[THREADS][2][COLUMNS * WIDTH];
    unsigned char *from = parts[thread][0], *to = parts[thread][1],
                  *far = at(next(), SCATTERED + (size_t)(me * THREADS + thread) * 3 * COLUMNS * WIDTH);
    const size_t there[] = { 3 * WIDTH }, here[] = { WIDTH }, counts[] = { WIDTH, COLUMNS };
    for (int turn = 0; turn < 20; turn++) {
        fill(from, COLUMNS * WIDTH, me, thread + turn);
        gasnet_puts_nbi_bulk((gasnet_node_t)next(), far, there, from, here, counts, 1);
        gasnet_wait_syncnbi_puts();
        gasnet_wait_syncnb(gasnet_gets_nb_bulk(to, here, (gasnet_node_t)next(), far, there, counts, 1));
        CHECK(is_filled(to, COLUMNS * WIDTH, me, thread + turn));
    }
}

/* All threads of all nodes add to one word, four times at once. */
static void count(void) {
    gex_Event_t events[4];
    uint64_t was[4];
    for (int turn = 0; turn < TURNS; turn += 4) {
        for (int i = 0; i < 4; i++)
            events[i] = gex_AD_OpNB_U64(words, &was[i], 0, at(0, WORD), GEX_OP_FADD, 3, 0, 0);
        for (int i = 0; i < 4; i++) {
            gex_Event_Wait(events[i]);
            CHECK(was[i] % 3 == 0 && was[i] < 3u * TURNS * THREADS * (unsigned)nodes);
        }
    }
}

/* A thread that waits is woken by what another thread's poll brings. */
static void call_round(int thread) {
    for (int turn = 1; turn <= 20; turn++) {
        GASNET_SAFE(gasnet_AMRequestShort1((gasnet_node_t)next(), WAKE, (thread + 1) % THREADS));
        GASNET_BLOCKUNTIL(woken[thread] >= turn);
    }
}

static void *work(void *which) {
    int thread = (int)(intptr_t)which;
    ask(thread);
    move(thread);
    scatter(thread);
    count();
    call_round(thread);
    return NULL;
}

int main(int argc, char **argv) {
    gasnet_handlerentry_t table[] = { { ADD, add }, { ADDED, is_added }, { WAKE, wake } };
    pthread_t threads[THREADS];
    start(&argc, &argv, table, 3, SEGMENT);
    gex_AD_Create(&words, NULL, GEX_DT_U64, GEX_OP_FADD | GEX_OP_GET, 0);
    for (intptr_t i = 1; i < THREADS; i++)
        CHECK(!pthread_create(&threads[i], NULL, work, (void *)i));
    work(NULL);
    for (int i = 1; i < THREADS; i++)
        pthread_join(threads[i], NULL);
    barrier();
    uint64_t total = 0;
    gex_Event_Wait(gex_AD_OpNB_U64(words, &total, 0, at(0, WORD), GEX_OP_GET, 0, 0, 0));
    CHECK(total == 3u * TURNS * THREADS * (unsigned)nodes);
    gasnet_hsl_lock(&lock);
    CHECK(sum == THREADS * TURNS * (TURNS - 1) / 2); /* each number comes to each node once a thread */
    gasnet_hsl_unlock(&lock);
    gasnet_exit(0);
}
