/* What collectives do with two elements. */
#ifndef CAF_COMBINE_H
#define CAF_COMBINE_H

#include <stdbool.h>
#include <stddef.h>
#include <stdint.h>

#include "abi.h"
#include "convert.h"

enum caf_reduction { CAF_SUM, CAF_MINIMUM, CAF_MAXIMUM, CAF_REDUCE };

struct caf_combiner {
    enum caf_reduction reduction;
    struct caf_type type;
    size_t length;                      /* of characters: the letters of an element */
    void *(*operation)(void *, void *); /* of CAF_REDUCE */
    int flags;
    void (*apply)(const struct caf_combiner *combiner, char *result, const char *first, const char *second,
                  size_t count);
};

/* Chooses how elements are combined; where their type has no such way, all images end. */
void caf_combiner_start(struct caf_combiner *combiner);

/* result[i] becomes what first[i] and second[i] give; the result may be one of them. */
void caf_combine(const struct caf_combiner *combiner, void *result, const void *first, const void *second,
                 size_t count);

/* How many of the reals look like kind 10, and how many like kind 16. gfortran hands on that they have 16 bytes, not
 * which kind they have, and what stands beside the ten bytes of kind 10 may be anything. */
struct caf_votes {
    uint32_t extended, quad;
};
struct caf_votes caf_vote(const void *reals, size_t count);

#endif
