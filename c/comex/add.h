/* What an accumulate does: numbers become themselves and a scale times other ones. */
#ifndef COMEXG_ADD_H
#define COMEXG_ADD_H

#include <stddef.h>

#include "state.h"

enum { COMEXG_SCALE_WORDS = 4 };

/* An operation of comex.h, COMEX_ACC_INT to COMEX_ACC_LNG, and its scale, which has as many bytes as a number. */
struct comexg_scaled {
    int op;
    int32_t scale[COMEXG_SCALE_WORDS];
};

/* The operation of a call; where there is no such one all processes end. */
struct comexg_scaled comexg_scaled(int op, const void *scale);

/* Adds the numbers of so many bytes to those at dst. The caller has comexg_state.lock. */
void comexg_add(const struct comexg_scaled *scaled, void *dst, const void *src, size_t bytes);

#endif
