#include "shape.h"

#include <string.h>

static _Noreturn void die_of_length(void) { comexg_die("a shape has more bytes than memory can have"); }

/* Makes levels one and zero one, where they lie together on both sides. */
static void join_level(struct comexg_shape *shape) {
    if (__builtin_mul_overflow(shape->count[0], shape->count[1], &shape->count[0]))
        die_of_length();
    shape->levels--;
    memmove(shape->count + 1, shape->count + 2, shape->levels * sizeof *shape->count);
    memmove(shape->src_stride, shape->src_stride + 1, shape->levels * sizeof *shape->src_stride);
    memmove(shape->dst_stride, shape->dst_stride + 1, shape->levels * sizeof *shape->dst_stride);
}

struct comexg_shape comexg_shape(const int *src_stride, const int *dst_stride, const int *count, int levels) {
    struct comexg_shape shape = { .levels = (size_t)levels };
    if (levels < 0 || levels > COMEX_MAX_STRIDE_LEVEL || count[0] < 0)
        comexg_die("a shape of %d levels: there are 0 to %d", levels, COMEX_MAX_STRIDE_LEVEL);
    shape.count[0] = (size_t)count[0];
    for (int i = 0; i < levels; i++) {
        if (count[i + 1] < 0 || src_stride[i] < 0 || dst_stride[i] < 0)
            comexg_die("a shape with a negative count or stride in level %d", i + 1);
        shape.count[i + 1] = (size_t)count[i + 1];
        shape.src_stride[i] = (size_t)src_stride[i];
        shape.dst_stride[i] = (size_t)dst_stride[i];
    }
    while (shape.levels && shape.src_stride[0] == shape.count[0] && shape.dst_stride[0] == shape.count[0])
        join_level(&shape);
    return shape;
}

void comexg_check_lists(const comex_giov_t *lists, int len) {
    for (int i = 0; i < len; i++)
        if (lists[i].count < 0 || lists[i].bytes < 0)
            comexg_die("a list of %d places with %d bytes each", lists[i].count, lists[i].bytes);
}

bool comexg_is_empty(const struct comexg_shape *shape) {
    for (size_t i = 0; i <= shape->levels; i++)
        if (!shape->count[i])
            return true;
    return false;
}

struct comexg_range comexg_extent(const struct comexg_shape *shape, const size_t *stride, const void *at) {
    size_t last = shape->count[0], bytes, end;
    for (size_t i = 0; i < shape->levels; i++)
        if (__builtin_mul_overflow(shape->count[i + 1] - 1, stride[i], &bytes) ||
            __builtin_add_overflow(last, bytes, &last))
            die_of_length();
    if (__builtin_add_overflow((uintptr_t)at, last, &end))
        die_of_length();
    return comexg_range(at, last);
}

static void each_below(const struct comexg_shape *shape, size_t level, char *const sides[2], comexg_plane *does,
                       void *context) {
    if (level <= 1) {
        does(context, shape, sides[0], sides[1]);
        return;
    }
    for (size_t i = 0; i < shape->count[level]; i++) {
        char *const below[2] = { sides[0] + i * shape->src_stride[level - 1],
                                 sides[1] + i * shape->dst_stride[level - 1] };
        each_below(shape, level - 1, below, does, context);
    }
}

void comexg_each_plane(const struct comexg_shape *shape, void *src, void *dst, comexg_plane *does, void *context) {
    char *const sides[2] = { src, dst };
    each_below(shape, shape->levels, sides, does, context);
}
