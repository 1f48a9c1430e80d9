#include "combine.h"

#include <complex.h>
#include <stdint.h>
#include <stdlib.h>
#include <string.h>

#include "errors.h"

typedef _Complex float __attribute__((mode(TC))) complex_quad;

/* ---- Sums, minima and maxima. */

typedef void applier(const struct caf_combiner *combiner, char *result, const char *first, const char *second,
                     size_t count);

/* The result may be one of the arguments, element by element; so elements don't depend on one another. */
#pragma GCC push_options
#pragma GCC optimize("O3")
#define APPLY(name, type, expression)                                                                                  \
    static void name(const struct caf_combiner *combiner, char *result, const char *first, const char *second,         \
                     size_t count) {                                                                                   \
        (void)combiner;                                                                                                \
        _Pragma("GCC ivdep") for (size_t at = 0; at < count * sizeof(type); at += sizeof(type)) {                      \
            type a, b;                                                                                                 \
            memcpy(&a, first + at, sizeof a);                                                                          \
            memcpy(&b, second + at, sizeof b);                                                                         \
            a = (type)(expression);                                                                                    \
            memcpy(result + at, &a, sizeof a);                                                                         \
        }                                                                                                              \
    }

#define INTEGER(bits, type, unsigned_type)                                                                             \
    APPLY(sum_i##bits, type, (unsigned_type)a + (unsigned_type)b)                                                      \
    APPLY(min_i##bits, type, b < a ? b : a)                                                                            \
    APPLY(max_i##bits, type, b > a ? b : a)

#define REAL(kind, type)                                                                                               \
    APPLY(sum_r##kind, type, a + b)                                                                                    \
    APPLY(min_r##kind, type, b < a || a != a ? b : a)                                                                  \
    APPLY(max_r##kind, type, b > a || a != a ? b : a)

INTEGER(8, int8_t, unsigned)
INTEGER(16, int16_t, unsigned)
INTEGER(32, int32_t, uint32_t)
INTEGER(64, int64_t, uint64_t)
INTEGER(128, __int128, unsigned __int128)
REAL(4, float)
REAL(8, double)
REAL(10, long double)
REAL(16, __float128)
APPLY(sum_c4, float _Complex, a + b)
APPLY(sum_c8, double _Complex, a + b)
APPLY(sum_c10, long double _Complex, a + b)
APPLY(sum_c16, complex_quad, a + b)
#pragma GCC pop_options

static int compare_texts(const struct caf_combiner *combiner, const void *first, const void *second) {
    size_t length = combiner->length;
    if (combiner->type.size == length)
        return memcmp(first, second, length);
    for (size_t i = 0; i < length; i++) {
        uint32_t a, b;
        memcpy(&a, (const char *)first + 4 * i, 4);
        memcpy(&b, (const char *)second + 4 * i, 4);
        if (a != b)
            return a < b ? -1 : 1;
    }
    return 0;
}

static void choose_text(const struct caf_combiner *combiner, char *result, const char *first, const char *second,
                        size_t count) {
    size_t size = combiner->type.size;
    for (size_t at = 0; at < count * size; at += size) {
        int order = compare_texts(combiner, first + at, second + at);
        bool is_first = combiner->reduction == CAF_MINIMUM ? order <= 0 : order >= 0;
        memmove(result + at, (is_first ? first : second) + at, size);
    }
}

/* ---- The operation of co_reduce: results and arguments of each type, by reference or by value. */

#define OPERATION(name, type)                                                                                          \
    static void reduce_##name(const struct caf_combiner *combiner, char *result, const char *first,                    \
                              const char *second, size_t count) {                                                      \
        for (size_t at = 0; at < count * sizeof(type); at += sizeof(type)) {                                           \
            type a, b;                                                                                                 \
            memcpy(&a, first + at, sizeof a);                                                                          \
            memcpy(&b, second + at, sizeof b);                                                                         \
            if (combiner->flags & CAF_ARGUMENT_VALUE)                                                                  \
                a = ((type(*)(type, type))combiner->operation)(a, b);                                                  \
            else                                                                                                       \
                a = ((type(*)(type *, type *))combiner->operation)(&a, &b);                                            \
            memcpy(result + at, &a, sizeof a);                                                                         \
        }                                                                                                              \
    }

#pragma GCC diagnostic ignored "-Wcast-function-type" /* gfortran hands all of them on as one type */
OPERATION(i8, int8_t)
OPERATION(i16, int16_t)
OPERATION(i32, int32_t)
OPERATION(i64, int64_t)
OPERATION(i128, __int128)
OPERATION(r4, float)
OPERATION(r8, double)
OPERATION(r10, long double)
OPERATION(r16, __float128)
OPERATION(c4, float _Complex)
OPERATION(c8, double _Complex)
OPERATION(c10, long double _Complex)
OPERATION(c16, complex_quad)

/* Copies of two elements, and the place of a result: an operation may have any of them. */
struct three {
    char *made, *a, *b;
};

static struct three three_of(size_t size) {
    char *made = caf_memory(3 * size);
    return (struct three){ made, made + size, made + 2 * size };
}

/* A function of characters: the result's place and length come first, the arguments' lengths last. */
static void reduce_text(const struct caf_combiner *combiner, char *result, const char *first, const char *second,
                        size_t count) {
    typedef void operation(char *, size_t, char *, char *, size_t, size_t);
    size_t size = combiner->type.size, length = combiner->length;
    const struct three three = three_of(size);
    for (size_t at = 0; at < count * size; at += size) {
        memcpy(three.a, first + at, size);
        memcpy(three.b, second + at, size);
        ((operation *)combiner->operation)(three.made, length, three.a, three.b, length, length);
        memcpy(result + at, three.made, size);
    }
    free(three.made);
}

/* A function whose result goes by its place: so do structures of more than 16 bytes, and with caf all of them. Such a
 * function answers that place; where it doesn't, its result is in registers that its type alone can tell. */
static void reduce_structure(const struct caf_combiner *combiner, char *result, const char *first, const char *second,
                             size_t count) {
    typedef char *operation(char *, char *, char *);
    size_t size = combiner->type.size;
    const struct three three = three_of(size);
    for (size_t at = 0; at < count * size; at += size) {
        memcpy(three.made, first + at, size);
        memcpy(three.a, first + at, size);
        memcpy(three.b, second + at, size);
        if (((operation *)combiner->operation)(three.made, three.a, three.b) != three.made)
            caf_die("co_reduce: the operation's result is a derived type of %zu bytes that comes in registers; compile "
                    "the operation by caf, or with -fpcc-struct-return",
                    size);
        memcpy(result + at, three.made, size);
    }
    free(three.made);
}

/* ---- The choice. */

struct choice {
    int type;
    size_t size;
    int kind; /* 0: any */
    applier *apply[4];
};

static const struct choice choices[] = {
    { CAF_INTEGER, 1, 0, { sum_i8, min_i8, max_i8, reduce_i8 } },
    { CAF_INTEGER, 2, 0, { sum_i16, min_i16, max_i16, reduce_i16 } },
    { CAF_INTEGER, 4, 0, { sum_i32, min_i32, max_i32, reduce_i32 } },
    { CAF_INTEGER, 8, 0, { sum_i64, min_i64, max_i64, reduce_i64 } },
    { CAF_INTEGER, 16, 0, { sum_i128, min_i128, max_i128, reduce_i128 } },
    { CAF_LOGICAL, 1, 0, { NULL, NULL, NULL, reduce_i8 } },
    { CAF_LOGICAL, 2, 0, { NULL, NULL, NULL, reduce_i16 } },
    { CAF_LOGICAL, 4, 0, { NULL, NULL, NULL, reduce_i32 } },
    { CAF_LOGICAL, 8, 0, { NULL, NULL, NULL, reduce_i64 } },
    { CAF_LOGICAL, 16, 0, { NULL, NULL, NULL, reduce_i128 } },
    { CAF_REAL, 4, 0, { sum_r4, min_r4, max_r4, reduce_r4 } },
    { CAF_REAL, 8, 0, { sum_r8, min_r8, max_r8, reduce_r8 } },
    { CAF_REAL, 16, 10, { sum_r10, min_r10, max_r10, reduce_r10 } },
    { CAF_REAL, 16, 16, { sum_r16, min_r16, max_r16, reduce_r16 } },
    { CAF_COMPLEX, 8, 0, { sum_c4, NULL, NULL, reduce_c4 } },
    { CAF_COMPLEX, 16, 0, { sum_c8, NULL, NULL, reduce_c8 } },
    { CAF_COMPLEX, 32, 10, { sum_c10, NULL, NULL, reduce_c10 } },
    { CAF_COMPLEX, 32, 16, { sum_c16, NULL, NULL, reduce_c16 } },
};

static applier *find(const struct caf_combiner *combiner) {
    const struct caf_type *type = &combiner->type;
    bool by_value = combiner->reduction == CAF_REDUCE && combiner->flags & CAF_ARGUMENT_VALUE;
    if ((type->type == CAF_CHARACTER || type->type == CAF_DERIVED) && by_value)
        return NULL;
    if (type->type == CAF_CHARACTER && combiner->reduction != CAF_SUM)
        return combiner->reduction == CAF_REDUCE ? reduce_text : choose_text;
    if (type->type == CAF_DERIVED && combiner->reduction == CAF_REDUCE)
        return reduce_structure;
    for (size_t i = 0; i < sizeof choices / sizeof *choices; i++) {
        const struct choice *choice = &choices[i];
        if (choice->type == type->type && choice->size == type->size && (!choice->kind || choice->kind == type->kind))
            return choice->apply[combiner->reduction];
    }
    return NULL;
}

void caf_combiner_start(struct caf_combiner *combiner) {
    combiner->apply = combiner->flags & CAF_ARGUMENT_DESCRIPTOR ? NULL : find(combiner);
    if (!combiner->apply)
        caf_die(
            "a collective of elements of type %d and %zu bytes, with its operation called in the way %d, isn't there",
            combiner->type.type, combiner->type.size, combiner->flags);
}

void caf_combine(const struct caf_combiner *combiner, void *result, const void *first, const void *second,
                 size_t count) {
    combiner->apply(combiner, result, first, second, count);
}

enum { BIAS = 16383, MODERATE = 2000 };

/* Whether an exponent of 15 bits is that of a number that programs compute with. */
static bool is_moderate(uint16_t bits) {
    int exponent = (bits & 0x7fff) - BIAS;
    return exponent >= -MODERATE && exponent <= MODERATE;
}

struct caf_votes caf_vote(const void *reals, size_t count) {
    struct caf_votes votes = { 0, 0 };
    for (size_t i = 0; i < count; i++) {
        const unsigned char *real = (const unsigned char *)reals + 16 * i;
        uint64_t low;
        uint16_t middle, top;
        memcpy(&low, real, 8);
        memcpy(&middle, real + 8, 2);
        memcpy(&top, real + 14, 2);
        bool is_extended = low >> 63 && is_moderate(middle); /* the leading bit stands in the number */
        bool is_quad = is_moderate(top) && (low || middle);  /* of a short number of kind 16 the last bytes are 0 */
        votes.extended += is_extended;
        votes.quad += is_quad && !is_extended;
    }
    return votes;
}
