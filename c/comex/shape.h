/* Strided shapes: count[0] bytes at each place, and count[i] places in level i, from 1 to levels, which are
 * stride[i - 1] bytes apart. */
#ifndef COMEXG_SHAPE_H
#define COMEXG_SHAPE_H

#include <stddef.h>

#include "order.h"

struct comexg_shape {
    size_t levels;
    size_t count[COMEX_MAX_STRIDE_LEVEL + 1];
    size_t src_stride[COMEX_MAX_STRIDE_LEVEL], dst_stride[COMEX_MAX_STRIDE_LEVEL];
};

/* The shape of a call. Levels whose places lie together on both sides are made one. Here and in comexg_extent all
 * processes are ended where memory can't have so many bytes. */
struct comexg_shape comexg_shape(const int *src_stride, const int *dst_stride, const int *count, int levels);

/* The bytes from the first one to the one behind the last, of a side that has these strides. The shape isn't empty. */
struct comexg_range comexg_extent(const struct comexg_shape *shape, const size_t *stride, const void *at);

/* Ends all processes where a list of places has a negative length, or a negative number of them. */
void comexg_check_lists(const comex_giov_t *lists, int len);

/* Whether nothing is in it. */
bool comexg_is_empty(const struct comexg_shape *shape);

/* Calls `does` for each plane, which has count[1] rows of count[0] bytes (or one row, where there is no level). */
typedef void comexg_plane(void *context, const struct comexg_shape *shape, char *src, char *dst);
void comexg_each_plane(const struct comexg_shape *shape, void *src, void *dst, comexg_plane *does, void *context);

/* The rows of each plane. */
static inline size_t comexg_rows(const struct comexg_shape *shape) { return shape->levels ? shape->count[1] : 1; }

#endif
