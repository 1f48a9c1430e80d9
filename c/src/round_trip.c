#include "round_trip.h"

enum { GRANULARITY = 50 }; /* the least time that is told apart from none, on a machine with other work */

static uint64_t greater(uint64_t a, uint64_t b) { return a > b ? a : b; }

void gasnetl_round_trip_measured(struct gasnetl_round_trip *trip, uint64_t time) {
    if (!trip->is_measured)
        *trip = (struct gasnetl_round_trip){ true, 8 * time, time, time };
    trip->smoothed += time - trip->smoothed / 8;
    trip->latest = time;
    if (time < trip->least)
        trip->least = time;
}

void gasnetl_round_trip_noted(struct gasnetl_round_trip *trip, uint64_t time) { trip->latest = time; }

uint64_t gasnetl_round_trip_smoothed(const struct gasnetl_round_trip *trip) { return trip->smoothed / 8; }

uint64_t gasnetl_round_trip_timeout(const struct gasnetl_round_trip *trip) {
    return trip->is_measured ? greater(trip->smoothed / 4, GASNETL_TIMEOUT_LEAST) : GASNETL_TIMEOUT_FIRST;
}

uint64_t gasnetl_round_trip_reordering(const struct gasnetl_round_trip *trip) {
    return trip->latest + greater(trip->least / 4, GRANULARITY);
}
