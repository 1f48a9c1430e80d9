/* IEEE_CLASS as a program that caf compiles calls it: the result goes by its place, as of every function of a derived
 * type that -fpcc-struct-return compiles. libgfortran's own functions hand it over in a register. */
#include <math.h>
#include <stdbool.h>
#include <stdint.h>

/* What IEEE_CLASS_TYPE holds. */
enum class {
    OTHER,
    SIGNALING_NAN,
    QUIET_NAN,
    NEGATIVE_INFINITY,
    NEGATIVE_NORMAL,
    NEGATIVE_SUBNORMAL,
    NEGATIVE_ZERO,
    POSITIVE_ZERO,
    POSITIVE_SUBNORMAL,
    POSITIVE_NORMAL,
    POSITIVE_INFINITY
};

static enum class class_of(int kind, bool is_negative, bool is_quiet) {
    switch (kind){
        case FP_NAN : return is_quiet ? QUIET_NAN : SIGNALING_NAN;
        case FP_INFINITE : return is_negative ? NEGATIVE_INFINITY : POSITIVE_INFINITY;
        case FP_ZERO : return is_negative ? NEGATIVE_ZERO : POSITIVE_ZERO;
        case FP_SUBNORMAL : return is_negative ? NEGATIVE_SUBNORMAL : POSITIVE_SUBNORMAL;
        case FP_NORMAL : return is_negative ? NEGATIVE_NORMAL : POSITIVE_NORMAL;
        default : return OTHER;
    }
}

/* Whether a bit of a number's bytes is set. */
static bool has_bit(const void *number, int bit) { return ((const unsigned char *)number)[bit / 8] >> bit % 8 & 1; }

#define CLASS(kind, type, sign, quiet)                                                                                 \
    int32_t *__ieee_arithmetic_MOD_ieee_class_##kind(int32_t *result, const type *x) {                                 \
        int how = __builtin_fpclassify(FP_NAN, FP_INFINITE, FP_NORMAL, FP_SUBNORMAL, FP_ZERO, *x);                     \
        *result = class_of(how, has_bit(x, sign), has_bit(x, quiet));                                                  \
        return result;                                                                                                 \
    }

CLASS(4, float, 31, 22)
CLASS(8, double, 63, 51)
CLASS(10, long double, 79, 62)
CLASS(16, __float128, 127, 111)
