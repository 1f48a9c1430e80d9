/* Collectives: each kind with each root and with lengths up to several pieces, in place, several under way at once
 * while puts and messages of the same nodes are, barriers; and then as many mixed ones as the argument says, by one
 * sequence of numbers that all nodes have. With an argument and more than eight nodes there are the mixed ones alone.
 */
#define GASNET_SEQ 1
#include "check.h"

enum { SEGMENT = 1 << 20, MOST = 20000, WORDS = MOST / 8, WINDOW = 6, MIXED = 60, NOTE = 128 };

static _Alignas(8) unsigned char given[MOST], got[MOST * GASNET_MAXNODES];
static unsigned notes;

static void note(gasnet_token_t token, gasnet_handlerarg_t number) {
    (void)token;
    (void)number;
    notes++;
}

/* ---- What each node gives, and what is right. */

/* The word of a node at a place: words of any size and sign. */
static uint64_t word(int who, size_t place, int when) {
    uint64_t x = ((uint64_t)who + 1) * 0x9e3779b97f4a7c15u + (uint64_t)place * 0xbf58476d1ce4e5b9u +
                 (uint64_t)when * 0x94d049bb133111ebu;
    x ^= x >> 31;
    return x * 0xd6e8feb86659fd93u;
}

static void fill_words(uint64_t *words, size_t count, int when) {
    for (size_t i = 0; i < count; i++)
        words[i] = word(me, i, when);
}

static uint64_t together(gex_OP_t op, bool is_signed, uint64_t a, uint64_t b) {
    bool less = is_signed ? (int64_t)a < (int64_t)b : a < b;
    if (op == GEX_OP_ADD)
        return a + b;
    return less == (op == GEX_OP_MIN) ? a : b;
}

static bool is_reduced(const uint64_t *words, size_t count, gex_OP_t op, bool is_signed, int when) {
    for (size_t i = 0; i < count; i++) {
        uint64_t right = word(0, i, when);
        for (int node = 1; node < nodes; node++)
            right = together(op, is_signed, right, word(node, i, when));
        if (words[i] != right)
            return false;
    }
    return true;
}

static bool is_gathered(const unsigned char *bytes, size_t length, int when) {
    for (int node = 0; node < nodes; node++)
        if (!is_filled(bytes + (size_t)node * length, length, node, when))
            return false;
    return true;
}

/* ---- One collective, begun and then looked at. */

enum kind { BROADCAST, GATHER, ALL_GATHER, REDUCE, ALL_REDUCE, BARRIER, KINDS };

struct one {
    enum kind kind;
    int root, when;
    size_t length; /* of bytes; of reductions a multiple of 8 */
    gex_OP_t op;
    bool is_signed;
    unsigned char *from, *to;
    gex_Event_t event;
};

static bool has_result(const struct one *one) {
    return (one->kind != GATHER && one->kind != REDUCE) || one->root == me;
}

static void begin(struct one *one) {
    gex_Rank_t root = (gex_Rank_t)one->root;
    gex_DT_t type = one->is_signed ? GEX_DT_I64 : GEX_DT_U64;
    void *to = has_result(one) ? one->to : NULL;
    if (one->kind == REDUCE || one->kind == ALL_REDUCE)
        fill_words((uint64_t *)(void *)one->from, one->length / 8, one->when);
    else
        fill(one->from, one->length, me, one->when);
    switch (one->kind) {
    case BROADCAST:
        one->event = gex_Coll_BroadcastNB(NULL, root, to, me == one->root ? one->from : NULL, one->length, 0);
        break;
    case GATHER:
        one->event = gasnet_coll_gather_nb(NULL, root, to, one->from, one->length, 0);
        break;
    case ALL_GATHER:
        one->event = gasnet_coll_gather_all_nb(NULL, to, one->from, one->length, 0);
        break;
    case REDUCE:
        one->event =
            gex_Coll_ReduceToOneNB(NULL, root, to, one->from, type, 8, one->length / 8, one->op, NULL, NULL, 0);
        break;
    case ALL_REDUCE:
        one->event = gex_Coll_ReduceToAllNB(NULL, to, one->from, type, 8, one->length / 8, one->op, NULL, NULL, 0);
        break;
    default:
        one->event = gex_Coll_BarrierNB(NULL, 0);
    }
}

static bool is_right(const struct one *one) {
    if (!has_result(one))
        return true;
    switch (one->kind) {
    case BROADCAST:
        return is_filled(one->to, one->length, one->root, one->when);
    case GATHER:
    case ALL_GATHER:
        return is_gathered(one->to, one->length, one->when);
    case REDUCE:
    case ALL_REDUCE:
        return is_reduced((uint64_t *)(void *)one->to, one->length / 8, one->op, one->is_signed, one->when);
    default:
        return true;
    }
}

static void run(struct one *one) {
    begin(one);
    gex_Event_Wait(one->event);
    CHECK(is_right(one));
}

/* ---- Each kind. */

static const gex_OP_t operations[] = { GEX_OP_ADD, GEX_OP_MIN, GEX_OP_MAX };

static void test_each(int root) {
    const size_t lengths[] = { 0, 8, 1000, 8192, 8200, MOST };
    int when = root;
    for (int i = 0; i < COUNT(lengths); i++)
        for (int kind = 0; kind < KINDS; kind++) {
            bool is_reduction = kind == REDUCE || kind == ALL_REDUCE;
            for (int op = 0; op < (is_reduction ? 2 * COUNT(operations) : 1); op++)
                run(&(struct one){ .kind = (enum kind)kind,
                                   .root = root,
                                   .when = when++,
                                   .length = lengths[i],
                                   .op = operations[op / 2],
                                   .is_signed = op % 2,
                                   .from = given,
                                   .to = got });
        }
}

/* Odd lengths, and both sides in the local segment. */
static void test_segment(void) {
    for (size_t length = 1; length < 20; length++) {
        run(&(struct one){ .kind = GATHER,
                           .root = nodes - 1,
                           .when = 7,
                           .length = length,
                           .from = at(me, 0),
                           .to = at(me, SEGMENT / 2) });
        run(&(struct one){ .kind = BROADCAST,
                           .root = nodes / 2,
                           .when = 8,
                           .length = length,
                           .from = at(me, 1),
                           .to = at(me, SEGMENT - length) });
    }
}

/* The blocking calls, where the source is the destination, and where it is its own place in a gather. */
static void test_in_place(void) {
    uint64_t *words = (uint64_t *)(void *)got;
    fill(got, MOST, me, 3);
    gasnet_coll_broadcast(NULL, (gex_Rank_t)(nodes - 1), got, got, MOST, 0);
    CHECK(is_filled(got, MOST, nodes - 1, 3));
    fill(got + (size_t)me * MOST, MOST, me, 4);
    gasnet_coll_gather_all(NULL, got, got + (size_t)me * MOST, MOST, 0);
    CHECK(is_gathered(got, MOST, 4));
    fill(got + (size_t)me * MOST, MOST, me, 5);
    gasnet_coll_gather(NULL, 0, got, got + (size_t)me * MOST, MOST, 0);
    CHECK(me || is_gathered(got, MOST, 5));
    fill_words(words, WORDS, 6);
    gasnet_coll_reduce_all(NULL, words, words, GEX_DT_U64, WORDS, GEX_OP_MAX, 0);
    CHECK(is_reduced(words, WORDS, GEX_OP_MAX, false, 6));
    fill_words(words, WORDS, 7);
    gasnet_coll_reduce(NULL, 0, words, words, GEX_DT_I64, WORDS, GEX_OP_MIN, 0);
    CHECK(me || is_reduced(words, WORDS, GEX_OP_MIN, true, 7));
}

/* No node leaves a barrier before all have come to it: each puts how often it came, and finds no smaller number behind.
 */
static void test_barriers(void) {
    for (uint64_t times = 1; times <= 10; times++) {
        for (int node = 0; node < nodes; node++)
            gasnet_put((gasnet_node_t)node, at(node, 8 * (size_t)me), &times, 8);
        gasnet_coll_barrier(NULL, 0);
        for (int node = 0; node < nodes; node++)
            CHECK(*(uint64_t *)(void *)at(me, 8 * (size_t)node) >= times);
    }
}

/* ---- Mixed ones: some begin before those before them are complete, with puts and messages in between. */

static uint64_t next_number(uint64_t *seed) {
    *seed = *seed * 6364136223846793005u + 1442695040888963407u;
    return *seed >> 33;
}

static struct one choose(uint64_t *seed, int when) {
    struct one one = { .kind = (enum kind)(next_number(seed) % KINDS),
                       .root = (int)(next_number(seed) % (uint64_t)nodes),
                       .when = when };
    size_t most = next_number(seed) % 8 ? 64 : 2000;
    one.length = next_number(seed) % most * 8;
    one.op = operations[next_number(seed) % COUNT(operations)];
    one.is_signed = next_number(seed) % 2;
    return one;
}

static void test_mixed(int times) {
    static _Alignas(8) unsigned char from[WINDOW][MOST], to[WINDOW][GASNET_MAXNODES * MOST];
    struct one window[WINDOW];
    uint64_t seed = 20;
    unsigned right = 0;
    for (int i = 0; i < times; i += WINDOW) {
        int many = times - i < WINDOW ? times - i : WINDOW;
        for (int k = 0; k < many; k++) {
            window[k] = choose(&seed, i + k);
            window[k].from = from[k];
            window[k].to = to[k];
            begin(&window[k]);
            GASNET_SAFE(gasnet_AMRequestShort1((gasnet_node_t)next(), NOTE, k));
        }
        gasnet_put_nbi((gasnet_node_t)next(), at(next(), SEGMENT / 2), given, MOST);
        for (int k = 0; k < many; k++) {
            int turn = i % (2 * WINDOW) ? k : many - 1 - k;
            while (k % 2 && gex_Event_Test(window[turn].event) != GASNET_OK)
                continue;
            if (k % 2 == 0)
                gex_Event_Wait(window[turn].event);
            CHECK(is_right(&window[turn]));
            right++;
        }
        gasnet_wait_syncnbi_puts();
    }
    GASNET_BLOCKUNTIL(notes == (unsigned)times);
    CHECK(right == (unsigned)times);
    if (me == 0)
        printf("%u collectives were right\n", right);
}

int main(int argc, char **argv) {
    gasnet_handlerentry_t table[] = { { NOTE, note } };
    start(&argc, &argv, table, COUNT(table), SEGMENT);
    if (argc < 2)
        for (int root = 0; root<nodes; root += nodes> 4 ? 3 : 1)
            test_each(root);
    if (nodes <= 8) {
        test_segment();
        test_in_place();
        test_barriers();
    }
    test_mixed(argc > 1 ? atoi(argv[1]) : MIXED);
    gasnet_coll_barrier(NULL, 0);
    gasnet_exit(0);
}
