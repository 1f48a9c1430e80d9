#include "sides.h"

#include <stdint.h>
#include <string.h>

/* ---- A side. */

/* A number that is too large stays the greatest one. */
static size_t sum_of(size_t a, size_t b) { return a > SIZE_MAX - b ? SIZE_MAX : a + b; }

static size_t product_of(size_t a, size_t b) {
    size_t product;
    return __builtin_mul_overflow(a, b, &product) ? SIZE_MAX : product;
}

struct gasnetl_side gasnetl_side_of_list(size_t count, const gasnet_memvec_t *list) {
    return (struct gasnetl_side){ .ranges = count, .list = list };
}

struct gasnetl_side gasnetl_side_of_places(size_t count, void *const *places, size_t each) {
    return (struct gasnetl_side){ .ranges = count, .places = places, .each = each };
}

struct gasnetl_side gasnetl_side_of_strides(void *base, const size_t *strides, const size_t *count, size_t levels) {
    struct gasnetl_side side = {
        .ranges = 1, .each = count[0], .base = base, .strides = strides, .counts = count + 1, .levels = levels
    };
    for (size_t level = 0; level < levels; level++)
        side.ranges = product_of(side.ranges, side.counts[level]);
    return side;
}

static size_t length_of(const struct gasnetl_side *side, size_t range) {
    return side->list ? side->list[range].len : side->each;
}

static char *place_of(const struct gasnetl_side *side, size_t range) {
    if (side->list)
        return side->list[range].addr;
    if (side->places)
        return side->places[range];
    uintptr_t place = (uintptr_t)side->base;
    for (size_t level = 0; level < side->levels; level++) {
        place += side->strides[level] * (range % side->counts[level]);
        range /= side->counts[level];
    }
    return (char *)place;
}

size_t gasnetl_side_total(const struct gasnetl_side *side) {
    if (!side->list)
        return product_of(side->ranges, side->each);
    size_t total = 0;
    for (size_t range = 0; range < side->ranges; range++)
        total = sum_of(total, side->list[range].len);
    return total;
}

/* ---- Copies of its lists. */

size_t gasnetl_side_size(const struct gasnetl_side *side) {
    if (side->list)
        return side->ranges * sizeof *side->list;
    if (side->places)
        return side->ranges * sizeof *side->places;
    return side->levels * (sizeof *side->strides + sizeof *side->counts);
}

/* Copies an array. Answers what is behind the copy. */
static void *copy(void *memory, const void *from, size_t bytes) {
    if (bytes)
        memcpy(memory, from, bytes);
    return (char *)memory + bytes;
}

void *gasnetl_side_move(struct gasnetl_side *side, void *memory) {
    const size_t bytes = gasnetl_side_size(side);
    void *behind;
    if (side->list) {
        behind = copy(memory, side->list, bytes);
        side->list = memory;
    } else if (side->places) {
        behind = copy(memory, side->places, bytes);
        side->places = memory;
    } else {
        size_t *counts = copy(memory, side->strides, bytes / 2);
        behind = copy(counts, side->counts, bytes / 2);
        side->strides = memory;
        side->counts = counts;
    }
    return behind;
}

/* ---- A walk. */

/* The walk is at the beginning of the present range. */
static void enter(struct gasnetl_walk *walk) {
    const struct gasnetl_side *side = walk->side;
    walk->at = place_of(side, walk->range);
    walk->ahead = length_of(side, walk->range);
    walk->row = side->levels ? side->counts[0] - 1 - walk->range % side->counts[0] : 0;
}

/* Goes past ranges that have no byte left. */
static void skip(struct gasnetl_walk *walk) {
    const struct gasnetl_side *side = walk->side;
    while (!walk->ahead && walk->range < side->ranges && ++walk->range < side->ranges) {
        if (!walk->row) {
            enter(walk);
            continue;
        }
        walk->row--;
        walk->at = (char *)((uintptr_t)walk->at + side->strides[0] - side->each);
        walk->ahead = side->each;
    }
}

static struct gasnetl_walk walk_of(const struct gasnetl_side *side) {
    struct gasnetl_walk walk = { .side = side };
    if (side->ranges) {
        enter(&walk);
        skip(&walk);
    }
    return walk;
}

/* Goes on by so many bytes of the present range. */
static void go_on(struct gasnetl_walk *walk, size_t nbytes) {
    walk->at += nbytes;
    walk->ahead -= nbytes;
    if (!walk->ahead)
        skip(walk);
}

struct gasnetl_pairs gasnetl_pairs_of(const struct gasnetl_side *far, const struct gasnetl_side *near) {
    return (struct gasnetl_pairs){ walk_of(far), walk_of(near) };
}

/* Whether the walk is at the beginning of a range of a strided side that others follow. */
static bool is_in_row(const struct gasnetl_walk *walk) { return walk->row && walk->ahead == walk->side->each; }

/* Whether the next ranges of both sides are pieces, as they don't continue each other. */
static bool is_row(const struct gasnetl_walk *far, const struct gasnetl_walk *near) {
    const size_t each = far->side->each;
    return is_in_row(far) && is_in_row(near) && each == near->side->each &&
           (far->side->strides[0] != each || near->side->strides[0] != each);
}

/* Goes past so many ranges of a row. */
static void pass(struct gasnetl_walk *walk, size_t count) {
    walk->range += count - 1;
    walk->row -= count - 1;
    walk->at = (char *)((uintptr_t)walk->at + (count - 1) * walk->side->strides[0]);
    go_on(walk, walk->side->each);
}

static struct gasnetl_row take_row(struct gasnetl_walk *far, struct gasnetl_walk *near) {
    const size_t count = (far->row < near->row ? far->row : near->row) + 1;
    const struct gasnetl_row row = {
        far->at, near->at, far->side->each, count, (int64_t)far->side->strides[0], (int64_t)near->side->strides[0]
    };
    pass(far, count);
    pass(near, count);
    return row;
}

bool gasnetl_pairs_next(struct gasnetl_pairs *pairs, struct gasnetl_row *next) {
    struct gasnetl_walk *far = &pairs->far, *near = &pairs->near;
    if (is_row(far, near)) {
        *next = take_row(far, near);
        return true;
    }
    *next = (struct gasnetl_row){ .far = far->at, .near = near->at };
    while (far->ahead && near->ahead && far->at == next->far + next->nbytes && near->at == next->near + next->nbytes) {
        const size_t nbytes = far->ahead < near->ahead ? far->ahead : near->ahead;
        next->nbytes += nbytes;
        go_on(far, nbytes);
        go_on(near, nbytes);
    }
    next->count = next->nbytes != 0;
    return next->count;
}
