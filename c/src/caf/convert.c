#include "convert.h"

#include <stdint.h>
#include <string.h>

#include "errors.h"

/* A number or a logical of any kind. */
struct number {
    bool is_integer;
    __int128 whole;
    __float128 real, imaginary;
};

struct caf_type caf_type_of(const struct caf_descriptor *array, int kind) {
    return (struct caf_type){ array->dtype.type, kind, array->dtype.elem_len };
}

static bool is_numeric(int type) { return type >= CAF_INTEGER && type <= CAF_COMPLEX; }

bool caf_is_same_type(const struct caf_type *a, const struct caf_type *b) {
    if (a->size != b->size)
        return false;
    if (a->type == b->type && (a->kind == b->kind || a->type == CAF_DERIVED))
        return true;
    return !(is_numeric(a->type) || a->type == CAF_CHARACTER) && !(is_numeric(b->type) || b->type == CAF_CHARACTER);
}

/* ---- Numbers. The bytes may lie anywhere. */

#define READ(type, field)                                                                                              \
    do {                                                                                                               \
        type value_;                                                                                                   \
        memcpy(&value_, at, sizeof value_);                                                                            \
        number->field = value_;                                                                                        \
    } while (0)

static _Noreturn void unknown(const struct caf_type *type) {
    caf_die("elements of type %d and kind %d, of %zu bytes, can't be converted", type->type, type->kind, type->size);
}

static void read_integer(struct number *number, const struct caf_type *type, const void *at) {
    number->is_integer = true;
    switch (type->size) {
    case 1:
        READ(int8_t, whole);
        break;
    case 2:
        READ(int16_t, whole);
        break;
    case 4:
        READ(int32_t, whole);
        break;
    case 8:
        READ(int64_t, whole);
        break;
    case 16:
        READ(__int128, whole);
        break;
    default:
        unknown(type);
    }
}

static void read_real(__float128 *real, int kind, const void *at, const struct caf_type *type) {
    struct {
        __float128 real;
    } copy, *number = &copy;
    switch (kind) {
    case 4:
        READ(float, real);
        break;
    case 8:
        READ(double, real);
        break;
    case 10:
        READ(long double, real);
        break;
    case 16:
        READ(__float128, real);
        break;
    default:
        unknown(type);
    }
    *real = copy.real;
}

static struct number read_number(const struct caf_type *type, const void *at) {
    struct number number = { .is_integer = false, .imaginary = 0 };
    if (type->type == CAF_INTEGER || type->type == CAF_LOGICAL)
        read_integer(&number, type, at);
    else
        read_real(&number.real, type->kind, at, type);
    if (type->type == CAF_COMPLEX)
        read_real(&number.imaginary, type->kind, (const char *)at + type->size / 2, type);
    return number;
}

#define WRITE(type, value)                                                                                             \
    do {                                                                                                               \
        type value_ = (type)(value);                                                                                   \
        memcpy(at, &value_, sizeof value_);                                                                            \
    } while (0)

static void write_integer(const struct caf_type *type, void *at, __int128 whole) {
    switch (type->size) {
    case 1:
        WRITE(int8_t, whole);
        break;
    case 2:
        WRITE(int16_t, whole);
        break;
    case 4:
        WRITE(int32_t, whole);
        break;
    case 8:
        WRITE(int64_t, whole);
        break;
    case 16:
        WRITE(__int128, whole);
        break;
    default:
        unknown(type);
    }
}

static void write_real(const struct caf_type *type, void *at, __float128 real) {
    switch (type->kind) {
    case 4:
        WRITE(float, real);
        break;
    case 8:
        WRITE(double, real);
        break;
    case 10:
        memset(at, 0, sizeof(long double));
        WRITE(long double, real);
        break;
    case 16:
        WRITE(__float128, real);
        break;
    default:
        unknown(type);
    }
}

/* An integer becomes a real by one rounding. */
static void write_real_of_integer(const struct caf_type *type, void *at, __int128 whole) {
    switch (type->kind) {
    case 4:
        WRITE(float, whole);
        break;
    case 8:
        WRITE(double, whole);
        break;
    default:
        write_real(type, at, (__float128)whole);
    }
}

/* The whole part of a real; of one that is out of range, the nearest integer that there is. */
static __int128 whole_part(__float128 real) {
    const __int128 most = (__int128)(((unsigned __int128)1 << 127) - 1);
    const __float128 bound = (__float128)((unsigned __int128)1 << 127);
    if (real != real)
        return 0;
    return real >= bound ? most : real <= -bound ? -most - 1 : (__int128)real;
}

static void write_number(const struct caf_type *type, void *at, const struct number *number) {
    __int128 whole = number->is_integer ? number->whole : whole_part(number->real);
    if (type->type == CAF_INTEGER)
        write_integer(type, at, whole);
    else if (type->type == CAF_LOGICAL)
        write_integer(type, at, whole != 0);
    else if (number->is_integer)
        write_real_of_integer(type, at, whole);
    else
        write_real(type, at, number->real);
    if (type->type == CAF_COMPLEX)
        write_real(type, (char *)at + type->size / 2, number->imaginary);
}

/* ---- Characters. */

static uint32_t character(const void *text, int kind, size_t i) {
    uint32_t wide;
    if (kind == 1)
        return ((const unsigned char *)text)[i];
    memcpy(&wide, (const char *)text + 4 * i, 4);
    return wide;
}

static void set_character(void *text, int kind, size_t i, uint32_t value) {
    if (kind == 1)
        ((unsigned char *)text)[i] = value > 255 ? '?' : (unsigned char)value;
    else
        memcpy((char *)text + 4 * i, &value, 4);
}

static size_t letters(const struct caf_type *type) { return type->kind == 4 ? type->size / 4 : type->size; }

static void assign_text(const struct caf_type *to, void *target, const struct caf_type *from, const void *source) {
    size_t length = letters(to), known = letters(from) < length ? letters(from) : length;
    int kind = to->kind == 4 ? 4 : 1, other = from->kind == 4 ? 4 : 1;
    for (size_t i = 0; i < known; i++)
        set_character(target, kind, i, character(source, other, i));
    for (size_t i = known; i < length; i++)
        set_character(target, kind, i, ' ');
}

/* ---- Any of them. */

static void assign(const struct caf_type *to, void *target, const struct caf_type *from, const void *source) {
    if (caf_is_same_type(to, from))
        memcpy(target, source, to->size);
    else if (to->type == CAF_CHARACTER && from->type == CAF_CHARACTER)
        assign_text(to, target, from, source);
    else if (is_numeric(to->type) && is_numeric(from->type)) {
        const struct number number = read_number(from, source);
        write_number(to, target, &number);
    } else
        caf_die("elements of type %d, of %zu bytes, can't become those of type %d, of %zu bytes", from->type,
                from->size, to->type, to->size);
}

void caf_convert(const struct caf_type *to, void *target, const struct caf_type *from, const void *source, size_t step,
                 size_t count) {
    for (size_t i = 0; i < count; i++)
        assign(to, (char *)target + i * to->size, from, (const char *)source + i * step);
}
