/* Conversions between the intrinsic types and kinds. */
#ifndef CAF_CONVERT_H
#define CAF_CONVERT_H

#include <stdbool.h>
#include <stddef.h>

#include "abi.h"

/* The type of an element: size in bytes, for characters of the whole text. */
struct caf_type {
    int type, kind;
    size_t size;
};

/* The type of an array's elements. */
struct caf_type caf_type_of(const struct caf_descriptor *array, int kind);

/* Whether elements of one type are those of the other, byte by byte. */
bool caf_is_same_type(const struct caf_type *a, const struct caf_type *b);

/* Assigns elements that lie together to others. The source's steps are its size, or 0 where one element is assigned to
 * all. Numbers and logicals are converted as by assignment; characters are cut, or padded by blanks. Where the types
 * don't convert, all images end. */
void caf_convert(const struct caf_type *to, void *target, const struct caf_type *from, const void *source, size_t step,
                 size_t count);

#endif
