/* Sections: where the elements of a part of an array lie, in the order of Fortran. */
#ifndef CAF_SECTION_H
#define CAF_SECTION_H

#include <stdbool.h>
#include <stddef.h>
#include <stdint.h>

#include "abi.h"

/* The places of one dimension, in bytes from the first: the i-th is i * stride, or places[i] where there is such a
 * table. */
struct caf_dimension {
    size_t count;
    ptrdiff_t stride;
    ptrdiff_t *places;
};

/* Runs of bytes in the memory of some image. The first dimension goes fastest. */
struct caf_section {
    uintptr_t base;
    size_t run; /* the bytes that lie together */
    int rank;
    struct caf_dimension dim[CAF_RANKS];
};

/* Consecutive bytes. */
struct caf_section caf_section_bytes(uintptr_t base, size_t length);

/* gfortran 12 sets neither the offset nor the span of the array that it makes for an object's component: sets that. */
void caf_mend_span(struct caf_descriptor *array);

/* An array of this one's type without elements. Nothing is read at its base. */
struct caf_descriptor caf_without_elements(struct caf_descriptor *array);

/* The elements of an array whose first one lies at base. */
struct caf_section caf_section_of(const struct caf_descriptor *array, uintptr_t base);

/* The elements that subscripts choose of the array whose first element, by its lower bounds, lies at base. A triplet
 * has as many as its bounds say, or, by extents, as many as the array has in its dimension. */
struct caf_section caf_section_chosen(const struct caf_descriptor *array, uintptr_t base,
                                      const struct caf_subscript *subscripts, bool by_extents);

/* Adds a dimension behind the others; the table of places, where there is one, is the section's from then on. */
void caf_section_add(struct caf_section *section, size_t count, ptrdiff_t stride, ptrdiff_t *places);

/* The i-th index of a vector subscript of this kind of integer. */
ptrdiff_t caf_index(const void *vector, int kind, size_t i);

/* Frees the tables of places. */
void caf_section_free(struct caf_section *section);

/* How many runs it has, and how many bytes. */
size_t caf_section_count(const struct caf_section *section);
size_t caf_section_length(const struct caf_section *section);

/* The same bytes in the same order, by as few and as long runs as there can be. Call it when the count of elements is
 * no longer asked for. */
void caf_section_join(struct caf_section *section);

/* The least address, and the one behind the greatest. */
void caf_section_hull(const struct caf_section *section, uintptr_t *low, uintptr_t *high);

/* A place in a section. */
struct caf_walk {
    const struct caf_section *section;
    size_t index[CAF_RANKS];
    uintptr_t at;  /* of the run */
    size_t within; /* the bytes of it that are behind */
};

/* Begins at this byte of the section, which isn't its end. */
struct caf_walk caf_walk_from(const struct caf_section *section, size_t first);

/* The next piece: its address, and its length, at most `most`. The walk goes behind it. */
uintptr_t caf_walk_next(struct caf_walk *walk, size_t most, size_t *length);

/* Copies bytes of a section of this image's own memory, from byte `first` of it on, to or from bytes that lie together.
 */
void caf_pack(const struct caf_section *from, size_t first, void *bytes, size_t length);
void caf_unpack(const struct caf_section *to, size_t first, const void *bytes, size_t length);

#endif
