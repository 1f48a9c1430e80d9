/* Round trips to a peer, as they are measured, and how long an answer is waited for. */
#ifndef GASNETL_ROUND_TRIP_H
#define GASNETL_ROUND_TRIP_H

#include <stdbool.h>
#include <stdint.h>

/* Times are in microseconds. */
struct gasnetl_round_trip {
    bool is_measured;
    uint64_t smoothed;      /* SRTT (RFC 6298, section 2), in eighths */
    uint64_t latest, least; /* that of the last answer, and the least */
};

/* A round trip took so long: that of a request that was sent once, since the answer to one that was sent again may be
 * to either transmission (RFC 6298, section 3). */
void gasnetl_round_trip_measured(struct gasnetl_round_trip *trip, uint64_t time);

/* An answer came after so long to a request that was sent more than once, and most likely to its last transmission. */
void gasnetl_round_trip_noted(struct gasnetl_round_trip *trip, uint64_t time);

/* SRTT; 0 where nothing was measured. */
uint64_t gasnetl_round_trip_smoothed(const struct gasnetl_round_trip *trip);

/* How long an answer may take before it is probed for: twice SRTT (RFC 8985, section 7.2), at least
 * GASNETL_TIMEOUT_LEAST; GASNETL_TIMEOUT_FIRST where nothing was measured. */
uint64_t gasnetl_round_trip_timeout(const struct gasnetl_round_trip *trip);

/* After how long a request is lost if one that was sent behind it is answered: the last round trip, and some time for
 * what is reordered (RFC 8985, section 6.2). */
uint64_t gasnetl_round_trip_reordering(const struct gasnetl_round_trip *trip);

enum { GASNETL_TIMEOUT_LEAST = 100, GASNETL_TIMEOUT_FIRST = 200000 };

#endif
