#include "add.h"

#include <string.h>

struct single {
    float real, imaginary;
};

struct full {
    double real, imaginary;
};

static size_t size_of(int op) {
    switch (op) {
    case COMEX_ACC_INT:
        return sizeof(int);
    case COMEX_ACC_LNG:
        return sizeof(long);
    case COMEX_ACC_FLT:
        return sizeof(float);
    case COMEX_ACC_DBL:
        return sizeof(double);
    case COMEX_ACC_CPL:
        return sizeof(struct single);
    case COMEX_ACC_DCP:
        return sizeof(struct full);
    default:
        comexg_die("there is no accumulate of operation %d", op);
    }
}

struct comexg_scaled comexg_scaled(int op, const void *scale) {
    struct comexg_scaled scaled = { .op = op };
    memcpy(scaled.scale, scale, size_of(op));
    return scaled;
}

/* ---- One function for each type. Integers are added modulo their size, as unsigned ones. */

#define ADD(name, type)                                                                                                \
    static void name(const void *by, void *to, const void *from, size_t bytes) {                                       \
        type *restrict dst = to;                                                                                       \
        const type *restrict src = from;                                                                               \
        type scale;                                                                                                    \
        memcpy(&scale, by, sizeof scale);                                                                              \
        for (size_t i = 0; i < bytes / sizeof *dst; i++)                                                               \
            dst[i] += scale * src[i];                                                                                  \
    }

#define ADD_COMPLEX(name, type)                                                                                        \
    static void name(const void *by, void *to, const void *from, size_t bytes) {                                       \
        type *restrict dst = to, scale;                                                                                \
        const type *restrict src = from;                                                                               \
        memcpy(&scale, by, sizeof scale);                                                                              \
        for (size_t i = 0; i < bytes / sizeof *dst; i++) {                                                             \
            dst[i].real += scale.real * src[i].real - scale.imaginary * src[i].imaginary;                              \
            dst[i].imaginary += scale.real * src[i].imaginary + scale.imaginary * src[i].real;                         \
        }                                                                                                              \
    }

ADD(add_int, unsigned)
ADD(add_long, unsigned long)
ADD(add_float, float)
ADD(add_double, double)
ADD_COMPLEX(add_single, struct single)
ADD_COMPLEX(add_full, struct full)

void comexg_add(const struct comexg_scaled *scaled, void *dst, const void *src, size_t bytes) {
    switch (scaled->op) {
    case COMEX_ACC_INT:
        add_int(scaled->scale, dst, src, bytes);
        break;
    case COMEX_ACC_LNG:
        add_long(scaled->scale, dst, src, bytes);
        break;
    case COMEX_ACC_FLT:
        add_float(scaled->scale, dst, src, bytes);
        break;
    case COMEX_ACC_DBL:
        add_double(scaled->scale, dst, src, bytes);
        break;
    case COMEX_ACC_CPL:
        add_single(scaled->scale, dst, src, bytes);
        break;
    default:
        add_full(scaled->scale, dst, src, bytes);
        break;
    }
}
