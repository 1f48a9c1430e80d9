/* The two sides of a transfer of many pieces: ranges of bytes, one after the other, and a walk along both. */
#ifndef GASNETL_SIDES_H
#define GASNETL_SIDES_H

#include <stdbool.h>
#include <stddef.h>
#include <stdint.h>

#include "gasnet.h"

/* A side. It reads the lists that it is made of as long as it is used. */
struct gasnetl_side {
    size_t ranges; /* how many it has */
    const gasnet_memvec_t *list;
    void *const *places;
    size_t each; /* the bytes at each place, and in each range of a strided side */
    char *base;
    const size_t *strides, *counts; /* of the levels from the first on */
    size_t levels;
};

struct gasnetl_side gasnetl_side_of_list(size_t count, const gasnet_memvec_t *list);
struct gasnetl_side gasnetl_side_of_places(size_t count, void *const *places, size_t each);
struct gasnetl_side gasnetl_side_of_strides(void *base, const size_t *strides, const size_t *count, size_t levels);

/* The bytes of all ranges; SIZE_MAX where there are more than memory can have. */
size_t gasnetl_side_total(const struct gasnetl_side *side);

/* How much memory the lists of a side take; and copies them to memory of so many bytes, from which the side then reads.
 * Answers what is behind the copy. */
size_t gasnetl_side_size(const struct gasnetl_side *side);
void *gasnetl_side_move(struct gasnetl_side *side, void *memory);

/* Pieces of one length, each of which lies together on both sides, and which are equally far apart on each of them. */
struct gasnetl_row {
    char *far, *near; /* where the first one lies */
    size_t nbytes;    /* of a piece */
    size_t count;
    int64_t far_step, near_step; /* between the beginnings of two */
};

/* The one with this number. */
static inline struct gasnetl_row gasnetl_piece_of(const struct gasnetl_row *row, size_t number) {
    const size_t far = number * (size_t)row->far_step, near = number * (size_t)row->near_step;
    return (struct gasnetl_row){
        (char *)((uintptr_t)row->far + far), (char *)((uintptr_t)row->near + near), row->nbytes, 1, 0, 0
    };
}

/* A place on a side: in the present range. */
struct gasnetl_walk {
    const struct gasnetl_side *side;
    size_t range; /* the present one */
    size_t row;   /* how many ranges of a strided side follow in its first level */
    char *at;
    size_t ahead; /* the bytes of the range from there on; 0 only behind the last range */
};

struct gasnetl_pairs {
    struct gasnetl_walk far, near;
};

/* A walk along both sides, from their beginnings on. */
struct gasnetl_pairs gasnetl_pairs_of(const struct gasnetl_side *far, const struct gasnetl_side *near);

/* The next piece, which has as many bytes as lie together on both sides, or the next few. False, and none, behind the
 * last one. */
bool gasnetl_pairs_next(struct gasnetl_pairs *pairs, struct gasnetl_row *next);

#endif
