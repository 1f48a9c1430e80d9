/* What an atomic operation costs beside what it is made of: a Medium request of 32 bytes with 4 arguments, and a Long
 * reply of 16 bytes. Each way in turn, as round trips, and with 16 at a time. Two nodes: bin/gasnetrun -n 2
 * out/bench/atomics. */
#define GASNET_SEQ 1
#include <gasnet.h>
#include <stdio.h>
#include <stdlib.h>
#include <string.h>
#include <time.h>

enum { ASK = 200, BACK = 201, SEGMENT = 1 << 20, ROUNDS = 200, TRIPS = 200, MOST = 16, OPERATION = 32, BLOCK = 16 };

static volatile unsigned backs;
static gasnet_seginfo_t segments[GASNET_MAXNODES];
static gex_AD_t u64, u32;

static double microseconds(void) {
    struct timespec time;
    clock_gettime(CLOCK_MONOTONIC, &time);
    return (double)time.tv_sec * 1e6 + (double)time.tv_nsec * 1e-3;
}

static void ask(gasnet_token_t token, void *bytes, size_t length, gasnet_handlerarg_t high, gasnet_handlerarg_t low,
                gasnet_handlerarg_t tag_high, gasnet_handlerarg_t tag_low) {
    uint64_t block[BLOCK / 8] = { 0, (uint64_t)(uint32_t)tag_high << 32 | (uint32_t)tag_low };
    uint64_t place = (uint64_t)(uint32_t)high << 32 | (uint32_t)low;
    (void)length;
    memcpy(block, bytes, sizeof *block);
    GASNET_SAFE(gasnet_AMReplyLong0(token, BACK, block, sizeof block, (char *)segments[0].addr + place));
}

static void back(gasnet_token_t token, void *bytes, size_t length) {
    (void)token;
    (void)bytes;
    (void)length;
    backs++;
}

static void by_messages(unsigned many) {
    uint64_t payload[OPERATION / 8] = { 0 };
    backs = 0;
    for (unsigned i = 0; i < many; i++) {
        payload[0] = i;
        GASNET_SAFE(gasnet_AMRequestMedium4(1, ASK, payload, sizeof payload, 0, (gasnet_handlerarg_t)(4096 + BLOCK * i),
                                            0, (gasnet_handlerarg_t)i));
    }
    GASNET_BLOCKUNTIL(backs == many);
}

static void by_words(unsigned many) {
    gex_Event_t events[MOST];
    uint64_t was[MOST];
    for (unsigned i = 0; i < many; i++)
        events[i] = gex_AD_OpNB_U64(u64, &was[i], 1, segments[1].addr, GEX_OP_FADD, 1, 0, 0);
    for (unsigned i = 0; i < many; i++)
        gex_Event_Wait(events[i]);
}

static void by_halves(unsigned many) {
    gex_Event_t events[MOST];
    uint32_t was[MOST];
    for (unsigned i = 0; i < many; i++)
        events[i] = gex_AD_OpNB_U32(u32, &was[i], 1, (char *)segments[1].addr + 12, GEX_OP_FADD, 1, 0, 0);
    for (unsigned i = 0; i < many; i++)
        gex_Event_Wait(events[i]);
}

static int by_value(const void *a, const void *b) {
    double x = *(const double *)a, y = *(const double *)b;
    return (x > y) - (x < y);
}

/* The median time of one, over rounds in which each way has its turn. */
static void measure(unsigned many) {
    static double times[3][ROUNDS];
    void (*const ways[])(unsigned) = { by_messages, by_words, by_halves };
    const char *const names[] = { "a Medium and a Long", "an atomic of 64 bits", "an atomic of 32 bits" };
    for (int round = -1; round < ROUNDS; round++)
        for (int way = 0; way < 3; way++) {
            double begun = microseconds();
            for (int i = 0; i < TRIPS; i++)
                ways[way](many);
            if (round >= 0) /* the first one warms up */
                times[way][round] = (microseconds() - begun) / TRIPS / many;
        }
    for (int way = 0; way < 3; way++)
        qsort(times[way], ROUNDS, sizeof **times, by_value);
    for (int way = 0; way < 3; way++)
        printf("%u at a time: %s %.2f us (least %.2f), ratio %.2f (of the least %.2f)\n", many, names[way],
               times[way][ROUNDS / 2], times[way][0], times[way][ROUNDS / 2] / times[0][ROUNDS / 2],
               times[way][0] / times[0][0]);
}

int main(int argc, char **argv) {
    gasnet_handlerentry_t table[] = { { ASK, ask }, { BACK, back } };
    GASNET_SAFE(gasnet_init(&argc, &argv));
    GASNET_SAFE(gasnet_attach(table, 2, SEGMENT, 0));
    GASNET_SAFE(gasnet_getSegmentInfo(segments, gasnet_nodes()));
    gex_AD_Create(&u64, NULL, GEX_DT_U64, GEX_OP_FADD, 0);
    gex_AD_Create(&u32, NULL, GEX_DT_U32, GEX_OP_FADD, 0);
    if (gasnet_mynode() == 0) {
        measure(1);
        measure(MOST);
    }
    gasnet_barrier_notify(0, GASNET_BARRIERFLAG_ANONYMOUS);
    GASNET_SAFE(gasnet_barrier_wait(0, GASNET_BARRIERFLAG_ANONYMOUS));
    gasnet_exit(0);
}
