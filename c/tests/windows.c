/* Round trips by hand (RFC 6298, section 2.3), and the congestion window as it grows and shrinks. It has no job. */
#include <stdio.h>

#include "../src/round_trip.h"
#include "../src/window.h"

static int wrong;

#define CHECK(condition)                                                                                               \
    do {                                                                                                               \
        if (!(condition)) {                                                                                            \
            fprintf(stderr, "%s:%d: %s\n", __FILE__, __LINE__, #condition);                                            \
            wrong = 1;                                                                                                 \
        }                                                                                                              \
    } while (0)

static void test_round_trips(void) {
    struct gasnetl_round_trip trip = { 0 };
    CHECK(gasnetl_round_trip_timeout(&trip) == GASNETL_TIMEOUT_FIRST);
    gasnetl_round_trip_measured(&trip, 800);
    CHECK(gasnetl_round_trip_smoothed(&trip) == 800 && gasnetl_round_trip_timeout(&trip) == 1600);
    gasnetl_round_trip_measured(&trip, 1600); /* 7/8 of 800 and 1/8 of 1,600 */
    CHECK(gasnetl_round_trip_smoothed(&trip) == 900 && gasnetl_round_trip_timeout(&trip) == 1800);
    CHECK(trip.latest == 1600 && trip.least == 800);
    CHECK(gasnetl_round_trip_reordering(&trip) == 1600 + 800 / 4);
    gasnetl_round_trip_noted(&trip, 820);
    CHECK(gasnetl_round_trip_smoothed(&trip) == 900 && gasnetl_round_trip_reordering(&trip) == 820 + 800 / 4);
    for (int i = 0; i < 100; i++)
        gasnetl_round_trip_measured(&trip, 6);
    CHECK(gasnetl_round_trip_smoothed(&trip) <= 7 && gasnetl_round_trip_timeout(&trip) == GASNETL_TIMEOUT_LEAST);
}

/* So many answers come while as many requests are on the way. */
static void answer(struct gasnetl_window *window, unsigned answers, unsigned in_flight) {
    for (unsigned i = 0; i < answers; i++)
        gasnetl_window_answered(window, in_flight);
}

static void test_growth(void) {
    struct gasnetl_window window;
    gasnetl_window_start(&window, 32);
    CHECK(window.size == GASNETL_WINDOW_FIRST);
    answer(&window, 100, GASNETL_WINDOW_FIRST - 1); /* it isn't what holds the sender back */
    CHECK(window.size == GASNETL_WINDOW_FIRST);
    answer(&window, 10, 32); /* a round trip doubles it */
    CHECK(window.size == 20);
    answer(&window, 100, 32);
    CHECK(window.size == 32);
    gasnetl_window_start(&window, 4);
    CHECK(window.size == 4);
}

static void test_losses(void) {
    struct gasnetl_window window;
    gasnetl_window_start(&window, 32);
    answer(&window, 100, 32);
    gasnetl_window_lost(&window, 7, 40, GASNETL_WINDOW_QUEUE);
    CHECK(window.size == 16);
    gasnetl_window_lost(&window, 40, 60, GASNETL_WINDOW_QUEUE); /* of the same round trip */
    CHECK(window.size == 16);
    answer(&window, 16, 16); /* behind its threshold it grows by one each round trip */
    CHECK(window.size == 17);
    gasnetl_window_lost(&window, 41, 90, 0); /* no queue: a fifth */
    CHECK(window.size == 13);
    for (uint64_t order = 91; order < 99; order++)
        gasnetl_window_lost(&window, order, order, 0);
    CHECK(window.size == GASNETL_WINDOW_FIRST);
    for (uint64_t order = 100; order < 109; order++)
        gasnetl_window_lost(&window, order, order, GASNETL_WINDOW_QUEUE);
    CHECK(window.size == GASNETL_WINDOW_LEAST);
    gasnetl_window_collapsed(&window, 120);
    CHECK(window.size == GASNETL_WINDOW_LEAST);
    answer(&window, 8, 32); /* it doubles again up to the first window */
    CHECK(window.size == GASNETL_WINDOW_FIRST);
}

int main(void) {
    test_round_trips();
    test_growth();
    test_losses();
    return wrong;
}
