/* Pieces as messages name them: what was written is read again, and what names a byte outside of the segment, or is no
 * run, is refused. It has no job. */
#include <stdio.h>
#include <stdlib.h>
#include <string.h>

#include "../src/runs.h"

enum { SIZE = 50000, PIECES = 300, TURNS = 2000, JUNK = 300000 };

static int wrong;

#define CHECK(condition)                                                                                               \
    do {                                                                                                               \
        if (!(condition)) {                                                                                            \
            fprintf(stderr, "%s:%d: %s\n", __FILE__, __LINE__, #condition);                                            \
            wrong = 1;                                                                                                 \
        }                                                                                                              \
    } while (0)

static uint64_t state = 88172645463325252u;

static uint64_t below(uint64_t bound) {
    state ^= state << 13;
    state ^= state >> 7;
    state ^= state << 17;
    return state % bound;
}

static struct gasnetl_runs runs;
static uint8_t segment[SIZE], copy[SIZE], data[GASNET_C_PAYLOAD], want[GASNET_C_PAYLOAD];

/* ---- What is written is read again. */

/* A few pieces in a row, or one, that lie in the segment. */
static struct gasnetl_run_of_pieces any_run(void) {
    struct gasnetl_run_of_pieces run = { .nbytes = 1 + below(12), .count = below(3) ? 1 : 1 + below(9) };
    run.offset = 10000 + below(SIZE - 20000);
    run.stride = (int64_t)below(1000) - 500;
    return run;
}

/* Copies the pieces of a run, byte by byte, as a put does, or as a get. */
static size_t copy_run(const struct gasnetl_run_of_pieces *run, size_t at) {
    for (uint64_t i = 0; i < run->count; i++)
        for (uint64_t k = 0; k < run->nbytes; k++, at++) {
            const size_t place = (size_t)((int64_t)run->offset + (int64_t)i * run->stride + (int64_t)k);
            want[at] = segment[place];
            copy[place] = data[at];
        }
    return at;
}

static void test_again(void) {
    size_t total = 0, length;
    for (size_t i = 0; i < SIZE; i++)
        segment[i] = copy[i] = (uint8_t)below(256);
    for (size_t i = 0; i < sizeof data; i++)
        data[i] = (uint8_t)below(256);
    gasnetl_runs_start(&runs);
    for (int i = 0; i < PIECES && total < GASNET_C_PAYLOAD - 200; i++) {
        const struct gasnetl_run_of_pieces run = any_run();
        const size_t before = runs.length;
        total = copy_run(&run, total);
        gasnetl_runs_add(&runs, &run);
        CHECK(runs.length <= before + GASNETL_RUN_MOST);
    }
    length = gasnetl_runs_end(&runs);
    CHECK(length == gasnetl_runs_end(&runs));
    CHECK(gasnetl_runs_judge(runs.bytes, length, SIZE) == total);
    gasnetl_runs_spread(runs.bytes, length, segment, data);
    CHECK(!memcmp(segment, copy, SIZE));
}

/* The same, of a get. */
static void test_gather(void) {
    static uint8_t came[GASNET_C_PAYLOAD];
    struct gasnetl_run_of_pieces run = any_run();
    size_t total = copy_run(&run, 0);
    gasnetl_runs_start(&runs);
    gasnetl_runs_add(&runs, &run);
    size_t length = gasnetl_runs_end(&runs);
    CHECK(gasnetl_runs_judge(runs.bytes, length, SIZE) == total);
    gasnetl_runs_gather(runs.bytes, length, segment, came);
    CHECK(!memcmp(came, want, total));
}

/* The greatest distances, of which a run has at most so many bytes as it is said to. */
static void test_widest(void) {
    const uint64_t size = (uint64_t)1 << 40, piece = GASNET_C_PAYLOAD / 2;
    const struct gasnetl_run_of_pieces wide = { 0, piece, 2, (int64_t)(size - piece) },
                                       back = { size - piece, piece, 2, (int64_t)(piece - size) },
                                       many = { size - 1, 1, GASNET_C_PAYLOAD, 1 - (int64_t)(size / GASNET_C_PAYLOAD) };
    const struct gasnetl_run_of_pieces *all[] = { &wide, &back, &many };
    for (int i = 0; i < 3; i++) {
        gasnetl_runs_start(&runs);
        gasnetl_runs_add(&runs, all[i]);
        const size_t length = gasnetl_runs_end(&runs);
        CHECK(length <= GASNETL_RUN_MOST);
        CHECK(gasnetl_runs_judge(runs.bytes, length, size) == all[i]->nbytes * all[i]->count);
        CHECK(gasnetl_runs_judge(runs.bytes, length, size - 1) == 0);
    }
}

/* ---- What is refused. */

static size_t write_number(uint8_t *bytes, uint64_t number) {
    size_t length = 0;
    for (; number >= 128; number >>= 7)
        bytes[length++] = (uint8_t)(number | 128);
    bytes[length++] = (uint8_t)number;
    return length;
}

/* The bytes that are judged of a run of these numbers. */
static size_t judge(uint64_t distance, uint64_t nbytes, uint64_t count, uint64_t stride) {
    uint8_t bytes[40];
    size_t length = write_number(bytes, distance);
    length += write_number(bytes + length, nbytes << 1 | (count != 1));
    if (count != 1) {
        length += write_number(bytes + length, count);
        length += write_number(bytes + length, stride);
    }
    return gasnetl_runs_judge(bytes, length, SIZE);
}

static void test_refused(void) {
    const uint64_t far = UINT64_MAX >> 2, size = SIZE;
    CHECK(judge(0, 8, 1, 0) == 8 && judge(2 * (size - 8), 8, 1, 0) == 8 && judge(0, 8, 2, 2 * (size - 8)) == 16);
    CHECK(judge(2 * size, 8, 1, 0) == 0 && judge(2 * (size - 7), 8, 1, 0) == 0 && judge(1, 8, 1, 0) == 0);
    CHECK(judge(2 * far, 8, 1, 0) == 0 && judge(far, 8, 1, 0) == 0 && judge(UINT64_MAX, 8, 1, 0) == 0);
    CHECK(judge(0, 8, 2, 2 * (size - 7)) == 0 && judge(2 * (size - 8), 8, 2, 2) == 0 && judge(16, 8, 3, 15) == 0);
    CHECK(judge(0, 8, 3, far) == 0 && judge(0, 8, 5, (uint64_t)1 << 62) == 0 && judge(0, 8, 9, far - 1) == 0);
    CHECK(judge(0, 0, 1, 0) == 0 && judge(0, 8, 0, 2) == 0 && judge(0, 0, 0, 0) == 0);
    CHECK(judge(0, 1, (uint64_t)1 << 60, 0) == 0 && judge(0, (uint64_t)1 << 60, 1, 0) == 0);
    CHECK(judge(0, (uint64_t)1 << 62, 2, 2) == 0 && judge(0, 1, GASNET_C_PAYLOAD + 1, 2) == 0);
    CHECK(judge(0, 1, GASNET_C_PAYLOAD, 2) == GASNET_C_PAYLOAD && judge(0, 4097, 2, 2) == 0);
    CHECK(gasnetl_runs_judge((const uint8_t *)"", 0, SIZE) == 0 &&
          gasnetl_runs_judge((const uint8_t *)"\0", 1, SIZE) == 0);
    CHECK(gasnetl_runs_judge((const uint8_t *)"\0\x10\0", 3, SIZE) == 0);
}

/* Whatever is taken of any bytes lies in the segment, as the sanitizer sees. */
static void test_junk(void) {
    uint8_t *own = malloc(SIZE), *bytes = malloc(64), *room = malloc(GASNET_C_PAYLOAD);
    long took = 0;
    if (!own || !bytes || !room)
        exit(2);
    memset(own, 0, SIZE);
    for (int turn = 0; turn < JUNK; turn++) {
        const size_t length = 1 + below(24);
        for (size_t i = 0; i < length; i++)
            bytes[64 - length + i] = (uint8_t)(below(3) ? below(64) : below(256));
        const size_t total = gasnetl_runs_judge(bytes + 64 - length, length, SIZE);
        CHECK(total <= GASNET_C_PAYLOAD);
        if (!total)
            continue;
        gasnetl_runs_gather(bytes + 64 - length, length, own, room);
        gasnetl_runs_spread(bytes + 64 - length, length, own, room);
        took++;
    }
    CHECK(took > JUNK / 100 && took < JUNK);
    free(own);
    free(bytes);
    free(room);
}

int main(void) {
    for (int turn = 0; turn < TURNS; turn++) {
        test_again();
        test_gather();
    }
    test_widest();
    test_refused();
    test_junk();
    return wrong;
}
