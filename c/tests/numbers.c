/* Atomic operations on numbers of 32 and 64 bits, signed and unsigned: what each finds and leaves, beside a number in
 * the other half of its word; and two sums in one word, to which all nodes add at once. */
#define GASNET_SEQ 1
#include "check.h"

enum { SEGMENT = 1 << 20, PLACES = 64, SUMS = 8, SEEN = 4096, FEWER = 1000, ALL = 64000, AT_ONCE = 32, TURNS = 200 };
#ifdef __SANITIZE_ADDRESS__
enum { ADDITIONS = FEWER };
#else
enum { ADDITIONS = 10000 };
#endif

#define EACH_OP (((gex_OP_t)1 << 25) - 1)

static gex_AD_t i32, u32, i64, u64;

/* The bits of a number after an operation, and what it was told; of one that brings nothing that stays 0x5555. */
struct outcome {
    uint64_t now, told;
};

#define OUTCOME(type, name, domain)                                                                                    \
    static struct outcome do_##domain(int node, size_t place, gex_OP_t op, uint64_t old, uint64_t a, uint64_t b) {     \
        type told = 0x5555, was;                                                                                       \
        void *where = at(node, place);                                                                                 \
        gex_Rank_t rank = (gex_Rank_t)node;                                                                            \
        gex_Event_Wait(gex_AD_OpNB_##name(domain, NULL, rank, where, GEX_OP_SET, (type)old, 0, 0));                    \
        gex_Event_Wait(gex_AD_OpNB_##name(domain, &told, rank, where, op, (type)a, (type)b, 0));                       \
        gex_Event_Wait(gex_AD_OpNB_##name(domain, &was, rank, where, GEX_OP_GET, 0, 0, 0));                            \
        return (struct outcome){ (uint64_t)was, (uint64_t)told };                                                      \
    }
OUTCOME(int32_t, I32, i32)
OUTCOME(uint32_t, U32, u32)
OUTCOME(int64_t, I64, i64)
OUTCOME(uint64_t, U64, u64)

typedef struct outcome doer(int node, size_t place, gex_OP_t op, uint64_t old, uint64_t a, uint64_t b);

/* An operation on a number, as two's complement of its size. */
struct trial {
    gex_OP_t op, fetching;
    int64_t old, a, b, made;
};

#define MOST32 0x7fffffff
#define MOST64 INT64_MAX

/* Those whose outcome is the same for signed and for unsigned numbers. */
static const struct trial common[] = {
    { GEX_OP_SET, GEX_OP_SWAP, 1, 7, 0, 7 },
    { GEX_OP_SET, GEX_OP_SWAP, 0, 0, 0, 0 },
    { GEX_OP_SET, GEX_OP_SWAP, 5, -1, 0, -1 },
    { GEX_OP_CAS, GEX_OP_FCAS, 7, 7, 9, 9 },
    { GEX_OP_CAS, GEX_OP_FCAS, 7, 8, 9, 7 },
    { GEX_OP_CAS, GEX_OP_FCAS, 0, 0, 9, 9 },
    { GEX_OP_CAS, GEX_OP_FCAS, -1, -1, 0, 0 },
    { GEX_OP_ADD, GEX_OP_FADD, -1, 3, 0, 2 },
    { GEX_OP_ADD, GEX_OP_FADD, 2, -3, 0, -1 },
    { GEX_OP_SUB, GEX_OP_FSUB, 2, 3, 0, -1 },
    { GEX_OP_SUB, GEX_OP_FSUB, -1, -3, 0, 2 },
    { GEX_OP_INC, GEX_OP_FINC, -1, 99, 0, 0 },
    { GEX_OP_DEC, GEX_OP_FDEC, 0, 99, 0, -1 },
    { GEX_OP_MULT, GEX_OP_FMULT, -7, 6, 0, -42 },
    { GEX_OP_AND, GEX_OP_FAND, 0xff00ff, 0xf0f0f0, 0, 0xf000f0 },
    { GEX_OP_OR, GEX_OP_FOR, 0xff00ff, 0xf0f0f0, 0, 0xfff0ff },
    { GEX_OP_XOR, GEX_OP_FXOR, 0xff00ff, 0xf0f0f0, 0, 0x0ff00f },
    { GEX_OP_MIN, GEX_OP_FMIN, 5, 4, 0, 4 },
    { GEX_OP_MIN, GEX_OP_FMIN, 5, 6, 0, 5 },
    { GEX_OP_MAX, GEX_OP_FMAX, 5, 4, 0, 5 },
    { GEX_OP_MAX, GEX_OP_FMAX, 5, 6, 0, 6 },
};
static const struct trial of_signed[] = {
    { GEX_OP_MIN, GEX_OP_FMIN, 5, -1, 0, -1 },
    { GEX_OP_MIN, GEX_OP_FMIN, -5, 1, 0, -5 },
    { GEX_OP_MAX, GEX_OP_FMAX, 5, -1, 0, 5 },
    { GEX_OP_MAX, GEX_OP_FMAX, -5, -1, 0, -1 },
};
static const struct trial of_unsigned[] = {
    { GEX_OP_MIN, GEX_OP_FMIN, 5, -1, 0, 5 },
    { GEX_OP_MIN, GEX_OP_FMIN, -5, 1, 0, 1 },
    { GEX_OP_MAX, GEX_OP_FMAX, 5, -1, 0, -1 },
    { GEX_OP_MAX, GEX_OP_FMAX, -5, -1, 0, -1 },
};
static const struct trial of_32_bits[] = {
    { GEX_OP_INC, GEX_OP_FINC, MOST32, 0, 0, -(int64_t)MOST32 - 1 },
    { GEX_OP_MULT, GEX_OP_FMULT, 0x10001, 0x10001, 0, 0x20001 },
};
static const struct trial of_64_bits[] = {
    { GEX_OP_INC, GEX_OP_FINC, MOST64, 0, 0, -MOST64 - 1 },
    { GEX_OP_MULT, GEX_OP_FMULT, 0x100000001, 0x100000001, 0, 0x200000001 },
};

/* Both forms of each trial; the number beside this one stays as it was. */
static void test_trials(doer *ask, int node, size_t place, const struct trial *trials, int count) {
    for (int i = 0; i < count; i++) {
        const struct trial *trial = &trials[i];
        struct outcome plain =
            ask(node, place, trial->op, (uint64_t)trial->old, (uint64_t)trial->a, (uint64_t)trial->b);
        struct outcome fetching =
            ask(node, place, trial->fetching, (uint64_t)trial->old, (uint64_t)trial->a, (uint64_t)trial->b);
        const uint64_t all = ask == do_u32 ? UINT32_MAX : UINT64_MAX; /* signed ones come back with their sign */
        CHECK(plain.told == 0x5555 && plain.now == ((uint64_t)trial->made & all));
        CHECK(fetching.told == ((uint64_t)trial->old & all) && fetching.now == ((uint64_t)trial->made & all));
    }
}

static void test_halves(int node) {
    for (size_t half = 0; half < 8; half += 4) {
        size_t place = PLACES + 16 * (size_t)me + half, beside = place + (half ? -(size_t)4 : 4);
        do_u32(node, beside, GEX_OP_GET, 0xdeadbeef, 0, 0);
        test_trials(do_i32, node, place, common, COUNT(common));
        test_trials(do_u32, node, place, common, COUNT(common));
        test_trials(do_i32, node, place, of_signed, COUNT(of_signed));
        test_trials(do_u32, node, place, of_unsigned, COUNT(of_unsigned));
        test_trials(do_u32, node, place, of_32_bits, COUNT(of_32_bits));
        uint32_t was = 0;
        gex_Event_Wait(gex_AD_OpNB_U32(u32, &was, (gex_Rank_t)node, at(node, beside), GEX_OP_GET, 0, 0, 0));
        CHECK(was == 0xdeadbeef);
    }
}

static void test_words(int node) {
    size_t place = PLACES + 16 * (size_t)me + 8;
    test_trials(do_i64, node, place, common, COUNT(common));
    test_trials(do_u64, node, place, common, COUNT(common));
    test_trials(do_i64, node, place, of_signed, COUNT(of_signed));
    test_trials(do_u64, node, place, of_unsigned, COUNT(of_unsigned));
    test_trials(do_u64, node, place, of_64_bits, COUNT(of_64_bits));
}

/* Each node adds 1 to one half of a word of node 0, and takes 1 from the other half, several at once: of four nodes
 * each 10,000 times to the lower half, but for sanitizers. It marks each number that the first half was: no two
 * additions were told the same. */
static void test_sums(size_t half) {
    int additions = nodes == 4 && !half ? ADDITIONS : FEWER, window = nodes > 2 ? 2 * AT_ONCE / nodes : AT_ONCE;
    size_t all = (size_t)additions * (size_t)nodes;
    uint32_t was[AT_ONCE], last;
    gex_Event_t events[AT_ONCE];
    unsigned char *seen = at(me, SEEN);
    static unsigned char total[ALL], theirs[ALL];
    memset(seen, 0, all);
    memset(total, 0, all);
    barrier();
    for (int i = 0; i < additions; i += window) {
        int many = additions - i < window ? additions - i : window;
        for (int k = 0; k < many; k++) {
            events[k] = gex_AD_OpNB_U32(u32, &was[k], 0, at(0, SUMS + half), GEX_OP_FADD, 1, 0, 0);
            gex_AD_OpNBI_U32(u32, NULL, 0, at(0, SUMS + (half ^ 4)), GEX_OP_DEC, 0, 0, 0);
        }
        for (int k = 0; k < many; k++) {
            gex_Event_Wait(events[k]);
            CHECK(was[k] < all && !seen[was[k]]);
            seen[was[k]] = 1;
        }
    }
    gasnet_wait_syncnbi_all();
    barrier();
    gex_Event_Wait(gex_AD_OpNB_U32(u32, &last, 0, at(0, SUMS + half), GEX_OP_GET, 0, 0, 0));
    CHECK(last == all);
    gex_Event_Wait(gex_AD_OpNB_U32(u32, &last, 0, at(0, SUMS + (half ^ 4)), GEX_OP_GET, 0, 0, 0));
    CHECK(last == (uint32_t)-all);
    for (int node = 0; me == 0 && node < nodes; node++) {
        gasnet_get_bulk(theirs, (gasnet_node_t)node, at(node, SEEN), all);
        for (size_t i = 0; i < all; i++)
            total[i] = (unsigned char)(total[i] + theirs[i]);
    }
    CHECK(me || is_all(total, all, 1));
    barrier();
    if (me == 0)
        for (size_t k = 0; k < 8; k += 4)
            gex_Event_Wait(gex_AD_OpNB_U32(u32, NULL, 0, at(0, SUMS + k), GEX_OP_SET, 0, 0, 0));
    barrier();
}

/* A number that only grows, and one that only falls, whatever the order. */
static void test_extremes(int node) {
    size_t place = PLACES + 2048;
    int32_t least = 0;
    int64_t most = 0;
    barrier();
    for (int i = 0; i < TURNS; i++) {
        gex_AD_OpNBI_I32(i32, NULL, (gex_Rank_t)node, at(node, place), GEX_OP_MIN, -(i * nodes + me), 0, 0);
        gex_AD_OpNBI_I64(i64, NULL, (gex_Rank_t)node, at(node, place + 8), GEX_OP_MAX,
                         (int64_t)i * nodes + me - ((int64_t)1 << 40), 0, 0);
    }
    gasnet_wait_syncnbi_puts();
    barrier();
    gex_Event_Wait(gex_AD_OpNB_I32(i32, &least, (gex_Rank_t)node, at(node, place), GEX_OP_GET, 0, 0, 0));
    gex_Event_Wait(gex_AD_OpNB_I64(i64, &most, (gex_Rank_t)node, at(node, place + 8), GEX_OP_GET, 0, 0, 0));
    CHECK(least == -(TURNS * nodes - 1) && most == 0); /* the word was 0 at first */
    barrier();
}

int main(int argc, char **argv) {
    gasnet_handlerentry_t table[] = { { 0, NULL } };
    start(&argc, &argv, table, 0, SEGMENT);
    gex_AD_Create(&i32, NULL, GEX_DT_I32, EACH_OP, 0);
    gex_AD_Create(&u32, NULL, GEX_DT_U32, EACH_OP, 0);
    gex_AD_Create(&i64, NULL, GEX_DT_I64, EACH_OP, 0);
    gex_AD_Create(&u64, NULL, GEX_DT_U64, EACH_OP, 0);
    test_halves(me);
    test_words(me);
    test_halves(next());
    test_words(next());
    test_sums(0);
    test_sums(4);
    test_extremes(nodes - 1);
    gex_AD_Destroy(i32);
    gex_AD_Destroy(u32);
    gex_AD_Destroy(i64);
    gex_AD_Destroy(u64);
    gasnet_exit(0);
}
