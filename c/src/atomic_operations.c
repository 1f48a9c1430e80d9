#include "atomic_operations.h"

/* The operations by name: without and with what the number was. */
static const struct form {
    gex_OP_t plain, fetching;
    uint32_t kind;
    bool by_one;
} forms[] = {
    { GEX_OP_AND, GEX_OP_FAND, GASNET_C_OP_AND, false },
    { GEX_OP_OR, GEX_OP_FOR, GASNET_C_OP_OR, false },
    { GEX_OP_XOR, GEX_OP_FXOR, GASNET_C_OP_XOR, false },
    { GEX_OP_ADD, GEX_OP_FADD, GASNET_C_OP_ADD, false },
    { GEX_OP_SUB, GEX_OP_FSUB, GASNET_C_OP_SUB, false },
    { GEX_OP_MULT, GEX_OP_FMULT, GASNETL_MULTIPLY, false },
    { GEX_OP_MIN, GEX_OP_FMIN, GASNET_C_OP_MIN, false },
    { GEX_OP_MAX, GEX_OP_FMAX, GASNET_C_OP_MAX, false },
    { GEX_OP_INC, GEX_OP_FINC, GASNET_C_OP_ADD, true },
    { GEX_OP_DEC, GEX_OP_FDEC, GASNET_C_OP_SUB, true },
    { GEX_OP_SET, GEX_OP_SWAP, GASNET_C_OP_SWAP, false },
    { GEX_OP_CAS, GEX_OP_FCAS, GASNET_C_OP_COMPARE_SWAP, false },
    { 0, GEX_OP_GET, GASNET_C_OP_GET, false },
};
enum { FORMS = sizeof forms / sizeof *forms };

size_t gasnetl_size_of(gex_DT_t type) {
    switch (type) {
    case GEX_DT_I32:
    case GEX_DT_U32:
        return sizeof(uint32_t);
    case GEX_DT_I64:
    case GEX_DT_U64:
        return sizeof(uint64_t);
    default:
        return 0;
    }
}

gex_OP_t gasnetl_all_operations(void) {
    gex_OP_t all = 0;
    for (int i = 0; i < FORMS; i++)
        all |= forms[i].plain | forms[i].fetching;
    return all;
}

/* The low bits of a number. */
static uint64_t cut(const struct gasnetl_change *change, uint64_t number) {
    return change->bits == 64 ? number : number & UINT32_MAX;
}

bool gasnetl_change_of(struct gasnetl_change *change, gex_DT_t type, gex_OP_t op, uint64_t a, uint64_t b,
                       unsigned byte) {
    for (int i = 0; i < FORMS; i++) {
        const struct form *form = &forms[i];
        if (!op || (form->plain != op && form->fetching != op))
            continue;
        *change = (struct gasnetl_change){ .kind = form->kind,
                                           .bits = 8 * (unsigned)gasnetl_size_of(type),
                                           .shift = 8 * byte };
        change->is_signed = type == GEX_DT_I32 || type == GEX_DT_I64;
        change->brings = form->fetching == op;
        change->a = form->by_one ? 1 : cut(change, a);
        change->b = cut(change, b);
        return true;
    }
    return false;
}

uint64_t gasnetl_number_in(const struct gasnetl_change *change, uint64_t word) {
    return cut(change, word >> change->shift);
}

static bool is_less(const struct gasnetl_change *change, uint64_t x, uint64_t y) {
    const uint64_t sign = change->is_signed ? (uint64_t)1 << (change->bits - 1) : 0;
    return (x ^ sign) < (y ^ sign);
}

/* The number that the operation makes of a number. */
static uint64_t made(const struct gasnetl_change *change, uint64_t old) {
    const uint64_t a = change->a;
    switch (change->kind) {
    case GASNET_C_OP_SWAP:
        return a;
    case GASNET_C_OP_COMPARE_SWAP:
        return old == a ? change->b : old;
    case GASNET_C_OP_ADD:
        return old + a;
    case GASNET_C_OP_SUB:
        return old - a;
    case GASNET_C_OP_AND:
        return old & a;
    case GASNET_C_OP_OR:
        return old | a;
    case GASNET_C_OP_XOR:
        return old ^ a;
    case GASNET_C_OP_MIN:
        return is_less(change, a, old) ? a : old;
    case GASNET_C_OP_MAX:
        return is_less(change, old, a) ? a : old;
    case GASNETL_MULTIPLY:
        return old * a;
    default:
        return old;
    }
}

/* The bits of the word that are the number's. */
static uint64_t mask_of(const struct gasnetl_change *change) { return cut(change, UINT64_MAX) << change->shift; }

uint64_t gasnetl_word_made(const struct gasnetl_change *change, uint64_t word) {
    const uint64_t number = cut(change, made(change, gasnetl_number_in(change, word)));
    return (word & ~mask_of(change)) | number << change->shift;
}

bool gasnetl_is_direct(const struct gasnetl_change *change, gasnet_c_operation *what) {
    what->op = change->kind;
    what->a = change->a << change->shift;
    what->b = change->b;
    switch (change->kind) {
    case GASNET_C_OP_GET:
    case GASNET_C_OP_OR:
    case GASNET_C_OP_XOR:
        return true;
    case GASNET_C_OP_AND:
        what->a |= ~mask_of(change);
        return true;
    case GASNET_C_OP_ADD:
    case GASNET_C_OP_SUB: /* what is carried goes to nobody */
        return change->shift + change->bits == 64;
    case GASNET_C_OP_SWAP:
    case GASNET_C_OP_COMPARE_SWAP:
        return change->bits == 64;
    case GASNET_C_OP_MIN:
    case GASNET_C_OP_MAX:
        return change->bits == 64 && !change->is_signed;
    default:
        return false;
    }
}
