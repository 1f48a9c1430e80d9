/* Operations on words: the sum of what all nodes add, a lock, each operation, the local node, many at once, implicit
 * ones and access regions, while puts and messages of the same nodes are under way. */
#define GASNET_SEQ 1
#include "check.h"

enum {
    SEGMENT = 1 << 20,
    MANY = 32,
    SUM = 0,
    LOCK = 8,
    COUNT_AT = 16,
    OWN = 64,
    WORDS = 256,
    SEEN = 4096,
    TIMES = 96,
    NOTE = 128,
    ADDITIONS = 10000,
    ALL = 40000,
    AT_ONCE = 64
};

#define EACH_OP (((gex_OP_t)1 << 23) - 1)
#define BY_SIZE (GEX_OP_MIN | GEX_OP_MAX | GEX_OP_FMIN | GEX_OP_FMAX)

static gex_AD_t words, signed_words;
static unsigned notes;

static void note(gasnet_token_t token, gasnet_handlerarg_t number) {
    (void)token;
    (void)number;
    notes++;
}

static uint64_t ask(int node, size_t offset, gex_OP_t op, uint64_t a, uint64_t b) {
    uint64_t was = 0x5555;
    gex_Event_Wait(gex_AD_OpNB_U64(words, &was, (gex_Rank_t)node, at(node, offset), op, a, b, 0));
    return was;
}

static uint64_t get(int node, size_t offset) { return ask(node, offset, GEX_OP_GET, 0, 0); }

/* Each node adds 1 to the word of node 0, up to 10,000 times and several at once, and marks each number that the word
 * was. No two of them were told the same. */
static void test_sum(void) {
    int additions = nodes > ALL / ADDITIONS ? ALL / nodes : ADDITIONS, window = nodes > 2 ? AT_ONCE / nodes : MANY;
    size_t all = (size_t)additions * (size_t)nodes;
    uint64_t was[MANY];
    gex_Event_t events[MANY];
    static unsigned char seen[ALL], theirs[ALL];
    barrier();
    for (int i = 0; i < additions; i += window) {
        int many = additions - i < window ? additions - i : window;
        for (int k = 0; k < many; k++)
            events[k] = gex_AD_OpNB_U64(words, &was[k], 0, at(0, SUM), GEX_OP_FADD, 1, 0, 0);
        for (int k = 0; k < many; k++) {
            gex_Event_Wait(events[k]);
            CHECK(was[k] < all && !*at(me, SEEN + was[k]));
            *at(me, SEEN + was[k]) = 1;
        }
        GASNET_SAFE(gasnet_AMRequestShort1((gasnet_node_t)next(), NOTE, i));
    }
    barrier();
    CHECK(get(0, SUM) == all);
    for (int node = 0; me == 0 && node < nodes; node++) {
        gasnet_get_bulk(theirs, (gasnet_node_t)node, at(node, SEEN), all);
        for (size_t i = 0; i < all; i++)
            seen[i] = (unsigned char)(seen[i] + theirs[i]);
    }
    CHECK(me || is_all(seen, all, 1));
    barrier();
}

/* A number of the last node that is read and written by whoever has the lock of node 0. */
static void test_lock(void) {
    int home = nodes - 1;
    barrier();
    for (int i = 0; i < TIMES / nodes; i++) {
        uint64_t number;
        while (ask(0, LOCK, GEX_OP_FCAS, 0, (uint64_t)me + 1) != 0)
            continue;
        gasnet_get(&number, (gasnet_node_t)home, at(home, COUNT_AT), 8);
        number++;
        gasnet_put((gasnet_node_t)home, at(home, COUNT_AT), &number, 8);
        CHECK(ask(0, LOCK, GEX_OP_SWAP, 0, 0) == (uint64_t)me + 1);
    }
    barrier();
    uint64_t number;
    gasnet_get(&number, (gasnet_node_t)home, at(home, COUNT_AT), 8);
    CHECK(number == (uint64_t)(TIMES / nodes * nodes));
    barrier();
}

/* Each operation, with what it finds and what it leaves. */
static void test_each(int node) {
    const uint64_t most = ~(uint64_t)0;
    const struct {
        gex_OP_t op, fetching;
        uint64_t old, a, b, new;
    } cases[] = {
        { GEX_OP_SET, GEX_OP_SWAP, 1, 7, 0, 7 },
        { GEX_OP_CAS, GEX_OP_FCAS, 7, 7, 9, 9 },
        { GEX_OP_CAS, GEX_OP_FCAS, 7, 8, 9, 7 },
        { GEX_OP_ADD, GEX_OP_FADD, most, 3, 0, 2 },
        { GEX_OP_SUB, GEX_OP_FSUB, 2, 3, 0, most },
        { GEX_OP_INC, GEX_OP_FINC, most, 99, 0, 0 },
        { GEX_OP_DEC, GEX_OP_FDEC, 0, 99, 0, most },
        { GEX_OP_AND, GEX_OP_FAND, 0xff00ff, 0xf0f0f0, 0, 0xf000f0 },
        { GEX_OP_OR, GEX_OP_FOR, 0xff00ff, 0xf0f0f0, 0, 0xfff0ff },
        { GEX_OP_XOR, GEX_OP_FXOR, 0xff00ff, 0xf0f0f0, 0, 0x0ff00f },
        { GEX_OP_MIN, GEX_OP_FMIN, 5, most, 0, 5 },
        { GEX_OP_MIN, GEX_OP_FMIN, 5, 4, 0, 4 },
        { GEX_OP_MAX, GEX_OP_FMAX, 5, most, 0, most },
        { GEX_OP_MAX, GEX_OP_FMAX, 5, 4, 0, 5 },
    };
    size_t word = WORDS + 8 * (size_t)me;
    for (int i = 0; i < COUNT(cases); i++) {
        ask(node, word, GEX_OP_SET, cases[i].old, 0);
        CHECK(ask(node, word, cases[i].op, cases[i].a, cases[i].b) == 0x5555); /* it brings nothing */
        CHECK(get(node, word) == cases[i].new);
        ask(node, word, GEX_OP_SET, cases[i].old, 0);
        CHECK(ask(node, word, cases[i].fetching, cases[i].a, cases[i].b) == cases[i].old);
        CHECK(get(node, word) == cases[i].new);
    }
    int64_t was = 0;
    ask(node, word, GEX_OP_SET, 5, 0);
    gex_Event_Wait(gex_AD_OpNB_I64(signed_words, &was, (gex_Rank_t)node, at(node, word), GEX_OP_FADD, -8, 0, 0));
    CHECK(was == 5);
    gex_Event_Wait(
        gex_AD_OpNB_I64(signed_words, &was, (gex_Rank_t)node, at(node, word), GEX_OP_GET, 0, 0, GEX_FLAG_AD_ACQ));
    CHECK(was == -3);
}

/* As many as a pair of nodes may have out, waited for in the reverse order; and then more than that. */
static void test_many(int node) {
    gex_Event_t events[4 * MANY];
    uint64_t was[4 * MANY], seen[4 * MANY] = { 0 };
    size_t word = WORDS + 512 + 8 * (size_t)me;
    for (int many = MANY; many <= 4 * MANY; many += 3 * MANY) {
        ask(node, word, GEX_OP_SET, 0, 0);
        for (int i = 0; i < many; i++)
            events[i] = gex_AD_OpNB_U64(words, &was[i], (gex_Rank_t)node, at(node, word), GEX_OP_FINC, 0, 0, 0);
        for (int i = many - 1; i >= 0; i--)
            gex_Event_Wait(events[i]);
        for (int i = 0; i < many; i++) {
            CHECK(was[i] < (uint64_t)many && seen[was[i]] != (uint64_t)many);
            seen[was[i]] = (uint64_t)many;
        }
    }
    for (int i = 0; i < MANY; i++)
        events[i] = gex_AD_OpNB_U64(words, NULL, (gex_Rank_t)node, at(node, word), GEX_OP_DEC, 0, 0, 0);
    for (int i = 0; i < MANY; i++)
        while (gex_Event_Test(events[i]) != GASNET_OK)
            continue;
    CHECK(get(node, word) == 3 * MANY);
}

static void test_implicit(int node) {
    size_t word = WORDS + 1024 + 8 * (size_t)me;
    uint64_t was[MANY], value = 1;
    ask(node, word, GEX_OP_SET, 0, 0);
    for (int i = 0; i < MANY; i++)
        CHECK(gex_AD_OpNBI_U64(words, &was[i], (gex_Rank_t)node, at(node, word), GEX_OP_FOR, (uint64_t)1 << i, 0, 0) ==
              0);
    gasnet_put_nbi((gasnet_node_t)node, at(node, OWN + SEGMENT / 2 + 8 * (size_t)me), &value, 8);
    gasnet_wait_syncnbi_puts();
    for (int i = 0; i < MANY; i++)
        CHECK((was[i] >> i & 1) == 0);
    CHECK(get(node, word) == 0xffffffff);
    gasnet_begin_nbi_accessregion();
    for (int i = 0; i < MANY; i++)
        gex_AD_OpNBI_I64(signed_words, NULL, (gex_Rank_t)node, at(node, word), GEX_OP_XOR, (int64_t)1 << i, 0, 0);
    gasnet_wait_syncnb(gasnet_end_nbi_accessregion());
    CHECK(get(node, word) == 0);
}

/* The last word of the segment. */
static void test_edge(int node) {
    CHECK(ask(node, SEGMENT - 8 * (size_t)nodes + 8 * (size_t)me, GEX_OP_SWAP, 3, 0) == 0);
    CHECK(get(node, SEGMENT - 8 * (size_t)nodes + 8 * (size_t)me) == 3);
    ask(node, SEGMENT - 8 * (size_t)nodes + 8 * (size_t)me, GEX_OP_SET, 0, 0);
}

int main(int argc, char **argv) {
    gasnet_handlerentry_t table[] = { { NOTE, note }, { 0, note } };
    start(&argc, &argv, table, COUNT(table), SEGMENT);
    gex_AD_Create(&words, NULL, GEX_DT_U64, EACH_OP, 0);
    gex_AD_Create(&signed_words, NULL, GEX_DT_I64, EACH_OP & ~BY_SIZE, GEX_FLAG_AD_MY_RANK);
    test_sum();
    test_lock();
    for (int node = 0; node < nodes; node++) {
        test_each(node);
        test_many(node);
        test_implicit(node);
        test_edge(node);
    }
    barrier();
    for (int i = 0; me && i < MANY; i++) /* node 0 ends meanwhile, and serves them */
        ask(0, WORDS + 8 * (size_t)me, GEX_OP_FINC, 0, 0);
    gex_AD_Destroy(words);
    gex_AD_Destroy(signed_words);
    gasnet_exit(0);
}
