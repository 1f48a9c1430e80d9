/* random_init: the seeds of all images follow from one random number that they share. */
#include "state.h"

/* Of libgfortran. */
void _gfortran_random_seed_i4(const int *size, const struct caf_descriptor *put, struct caf_descriptor *get);

enum { SEED = 8 }; /* the integers of a seed */

static uint64_t mixed(uint64_t z) {
    z = (z ^ (z >> 30)) * 0xbf58476d1ce4e5b9u;
    z = (z ^ (z >> 27)) * 0x94d049bb133111ebu;
    return z ^ (z >> 31);
}

void _gfortran_caf_random_init(bool repeatable, bool image_distinct) {
    int32_t seed[SEED];
    struct caf_descriptor put = { .base = seed, .span = sizeof *seed };
    caf_start();
    uint64_t start = repeatable ? 0 : mixed(caf_state.seed + ++caf_state.seeds);
    if (image_distinct)
        start += (uint64_t)(caf_state.me + 1) << 32;
    for (unsigned i = 0; i < SEED; i++)
        seed[i] = (int32_t)(uint32_t)mixed(mixed(start + 0x9e3779b97f4a7c15u * (i + 1)));
    put.dtype.elem_len = sizeof *seed;
    put.dtype.rank = 1;
    put.dtype.type = CAF_INTEGER;
    put.dim[0] = (struct caf_bounds){ 1, 1, SEED };
    put.offset = (size_t)-1;
    _gfortran_random_seed_i4(NULL, &put, NULL);
}
