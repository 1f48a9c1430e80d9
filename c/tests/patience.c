/* Whether a call that waits looks again or sleeps, by hand. It has no job. */
#include <stdio.h>

#include "../src/patience.h"

static int wrong;

#define CHECK(condition)                                                                                               \
    do {                                                                                                               \
        if (!(condition)) {                                                                                            \
            fprintf(stderr, "%s:%d: %s\n", __FILE__, __LINE__, #condition);                                            \
            wrong = 1;                                                                                                 \
        }                                                                                                              \
    } while (0)

enum { MOST = 10 };

static uint64_t now = 1000000;

/* A wait of `looks` empty ones, a microsecond each, behind which something comes; a sleep ends the row, and takes
 * `asleep` microseconds. How many looks it made before it slept, or in all. */
static unsigned wait_for(struct gasnetl_patience *patience, unsigned looks, uint64_t asleep) {
    unsigned turn = 0;
    while (turn < looks) {
        now++;
        if (gasnetl_patience_is_over(patience, ++turn, MOST, now)) {
            now += asleep;
            break;
        }
    }
    gasnetl_patience_came(patience, turn, now);
    return turn;
}

static void test_spins_that_pay(void) {
    struct gasnetl_patience patience = { 0 };
    for (int i = 0; i < 1000; i++)
        CHECK(wait_for(&patience, MOST - 1, 50) == MOST - 1);
    for (int i = 0; i < 10; i++) { /* two that fail, and one that doesn't: it goes on */
        CHECK(wait_for(&patience, 100, 50) == MOST && wait_for(&patience, 100, 50) == MOST);
        CHECK(wait_for(&patience, 1, 50) == 1);
    }
}

static void fail(struct gasnetl_patience *patience) {
    for (int i = 0; i < GASNETL_PATIENCE_FAILED; i++)
        CHECK(wait_for(patience, 100, 50) == MOST);
}

/* How many waits sleep at once, each for a short time, before the next one spins: at most so many. */
static unsigned sleeps_before_spin(struct gasnetl_patience *patience, unsigned looks, unsigned most) {
    unsigned sleeps = 0;
    while (sleeps <= most && wait_for(patience, looks, 50) == 1)
        sleeps++;
    return sleeps;
}

static void test_spins_that_fail(void) {
    struct gasnetl_patience patience = { 0 };
    fail(&patience);
    for (unsigned wanted = 1; wanted <= GASNETL_PATIENCE_MOST_WANTED; wanted *= 2)
        CHECK(sleeps_before_spin(&patience, 100, 5000) == wanted);
    CHECK(sleeps_before_spin(&patience, 100, 5000) == GASNETL_PATIENCE_MOST_WANTED);
}

static void test_spins_again(void) {
    struct gasnetl_patience patience = { 0 };
    fail(&patience);
    for (int i = 0; i < 100; i++) /* long sleeps are none that a spin could save */
        CHECK(wait_for(&patience, 100, 1000) == 1);
    CHECK(sleeps_before_spin(&patience, MOST - 1, 10) == 1);
    for (int i = 0; i < 100; i++)
        CHECK(wait_for(&patience, MOST - 1, 50) == MOST - 1);
}

/* The processor isn't taken where the clock jumps and the system counts no switch: the host had other work. */
static void test_jump(void) {
    struct gasnetl_patience patience = { .switches = 1000000 };
    CHECK(!gasnetl_patience_is_over(&patience, 1, MOST, now));
    now += 10 * GASNETL_PATIENCE_TAKEN;
    CHECK(!gasnetl_patience_is_over(&patience, 2, MOST, now));
    gasnetl_patience_came(&patience, 2, now + 10 * GASNETL_PATIENCE_TAKEN);
    CHECK(wait_for(&patience, MOST - 1, 50) == MOST - 1);
}

/* Where it is taken, by a count of switches that is more than none, no spin is made for a while. */
static void take(struct gasnetl_patience *patience) {
    CHECK(!gasnetl_patience_is_over(patience, 1, MOST, ++now));
    patience->switches = -1;
    now += GASNETL_PATIENCE_TAKEN;
    CHECK(gasnetl_patience_is_over(patience, 2, MOST, now));
    gasnetl_patience_came(patience, 2, now);
}

static void test_taken(void) {
    struct gasnetl_patience patience = { 0 };
    uint64_t pause = GASNETL_PATIENCE_PAUSE;
    for (int i = 0; i < 10; i++) {
        take(&patience);
        CHECK(patience.until == now + pause);
        now = patience.until - 100;
        CHECK(wait_for(&patience, MOST - 1, 10) == 1);
        now = patience.until;
        pause = 2 * pause < GASNETL_PATIENCE_MOST_PAUSE ? 2 * pause : GASNETL_PATIENCE_MOST_PAUSE;
    }
    now += 2 * GASNETL_PATIENCE_MOST_PAUSE;
    CHECK(wait_for(&patience, MOST - 1, 10) == MOST - 1);
    take(&patience);
    CHECK(patience.until == now + GASNETL_PATIENCE_PAUSE);
}

int main(void) {
    test_spins_that_pay();
    test_spins_that_fail();
    test_spins_again();
    test_jump();
    test_taken();
    return wrong;
}
