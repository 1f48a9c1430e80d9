/* Active messages: each category with 0 to 16 arguments, payloads of 0, 1 and the most bytes, replies of each category,
 * to each node, the local one too. */
#define GASNET_SEQ 1
#include "check.h"

enum {
    ANY = 0,
    TELL = 128,
    TELL_BUF = 129,
    SHORT_BACK = 130,
    MEDIUM_BACK = 131,
    LONG_BACK = 132,
    SHORT_FOR = 133,
    MEDIUM_FOR = 134,
    LONG_FOR = 135,
    BOTH = 200,
    SEGMENT = 1 << 20,
    PLACE = 8192
};

#define PARAMETERS                                                                                                     \
    gasnet_handlerarg_t a0, gasnet_handlerarg_t a1, gasnet_handlerarg_t a2, gasnet_handlerarg_t a3,                    \
        gasnet_handlerarg_t a4, gasnet_handlerarg_t a5, gasnet_handlerarg_t a6, gasnet_handlerarg_t a7,                \
        gasnet_handlerarg_t a8, gasnet_handlerarg_t a9, gasnet_handlerarg_t a10, gasnet_handlerarg_t a11,              \
        gasnet_handlerarg_t a12, gasnet_handlerarg_t a13, gasnet_handlerarg_t a14, gasnet_handlerarg_t a15
#define NUMBERS 0, -1, 2, -3, 4, -5, 6, -7, 8, -9, INT32_MAX, INT32_MIN, 12, -13, 14, -15

static int ran, backs, boths;
static size_t length_seen;
static int from_seen;

static void check_numbers(PARAMETERS) {
    const gasnet_handlerarg_t came[] = { a0, a1, a2, a3, a4, a5, a6, a7, a8, a9, a10, a11, a12, a13, a14, a15 };
    const gasnet_handlerarg_t wanted[] = { NUMBERS };
    CHECK(!memcmp(came, wanted, sizeof came));
}

static int source(gasnet_token_t token) {
    gasnet_node_t node;
    GASNET_SAFE(gasnet_AMGetMsgSource(token, &node));
    return node;
}

/* ---- With no arguments: what was seen is told by globals. */

static void tell(gasnet_token_t token) {
    from_seen = source(token);
    ran++;
    GASNET_SAFE(gasnet_AMReplyShort0(token, SHORT_BACK));
}

static void tell_buf(gasnet_token_t token, void *buf, size_t nbytes) {
    from_seen = source(token);
    length_seen = nbytes;
    CHECK(is_filled(buf, nbytes, from_seen, 1));
    ran++;
    GASNET_SAFE(gasnet_AMReplyShort0(token, SHORT_BACK));
}

static void short_back(gasnet_token_t token) {
    source(token);
    backs++;
}

/* ---- With one: the payload's length. */

static void medium_for(gasnet_token_t token, void *buf, size_t nbytes, gasnet_handlerarg_t length) {
    CHECK((size_t)length == nbytes && is_filled(buf, nbytes, source(token), 2) && (uintptr_t)buf % 8 == 0);
    fill(buf, nbytes, me, 3); /* the buffer is the handler's while it runs */
    GASNET_SAFE(gasnet_AMReplyMedium1(token, MEDIUM_BACK, buf, nbytes, length));
}

static void medium_back(gasnet_token_t token, void *buf, size_t nbytes, gasnet_handlerarg_t length) {
    CHECK((size_t)length == nbytes && is_filled(buf, nbytes, source(token), 3));
    backs++;
}

static void long_for(gasnet_token_t token, void *buf, size_t nbytes, gasnet_handlerarg_t length) {
    int from = source(token);
    CHECK((size_t)length == nbytes && is_filled(buf, nbytes, from, 4));
    CHECK(buf == at(me, (size_t)PLACE * (size_t)from));
    fill(buf, nbytes, me, 5); /* what it leaves stays there */
    GASNET_SAFE(
        gasnet_AMReplyLong1(token, LONG_BACK, buf, nbytes, at(from, SEGMENT / 2 + (size_t)PLACE * (size_t)me), length));
}

static void long_back(gasnet_token_t token, void *buf, size_t nbytes, gasnet_handlerarg_t length) {
    int from = source(token);
    CHECK((size_t)length == nbytes && is_filled(buf, nbytes, from, 5));
    CHECK(buf == at(me, SEGMENT / 2 + (size_t)PLACE * (size_t)from));
    if (nbytes)
        *(unsigned char *)buf = 77;
    backs++;
}

/* ---- With sixteen. */

static void sixteen(gasnet_token_t token, PARAMETERS) {
    check_numbers(a0, a1, a2, a3, a4, a5, a6, a7, a8, a9, a10, a11, a12, a13, a14, a15);
    GASNET_SAFE(gasnet_AMReplyMedium16(token, BOTH, "sixteen", 8, NUMBERS));
}

/* Serves requests and replies alike. */
static void both(gasnet_token_t token, void *buf, size_t nbytes, PARAMETERS) {
    check_numbers(a0, a1, a2, a3, a4, a5, a6, a7, a8, a9, a10, a11, a12, a13, a14, a15);
    CHECK(nbytes == 8 && !strcmp(buf, "sixteen"));
    boths++;
    (void)token;
}

/* ---- Each count of arguments. */

static int sums;

static void one(gasnet_token_t token, gasnet_handlerarg_t a0) {
    (void)token;
    sums += a0;
}
static void three(gasnet_token_t token, gasnet_handlerarg_t a0, gasnet_handlerarg_t a1, gasnet_handlerarg_t a2) {
    (void)token;
    sums += a0 * 100 + a1 * 10 + a2;
}
static void seven(gasnet_token_t token, void *buf, size_t nbytes, gasnet_handlerarg_t a0, gasnet_handlerarg_t a1,
                  gasnet_handlerarg_t a2, gasnet_handlerarg_t a3, gasnet_handlerarg_t a4, gasnet_handlerarg_t a5,
                  gasnet_handlerarg_t a6) {
    (void)token;
    CHECK(nbytes == 3 && !memcmp(buf, "abc", 3));
    sums += a0 + a1 + a2 + a3 + a4 + a5 + a6;
}

static void test_counts(int node, const gasnet_handlerentry_t *table) {
    sums = 0;
    backs = 0;
    barrier();
    GASNET_SAFE(gasnet_AMRequestShort1(node, table[0].index, 5));
    GASNET_SAFE(gasnet_AMRequestShort3(node, table[1].index, 1, 2, 3));
    GASNET_SAFE(gasnet_AMRequestMedium7(node, table[2].index, "abc", 3, 1, 2, 3, 4, 5, 6, 7));
    GASNET_SAFE(gasnet_AMRequestShort0(node, TELL));
    GASNET_BLOCKUNTIL(backs == 1 && sums == 5 + 123 + 28);
    barrier();
}

static void test_sizes(int node, size_t nbytes) {
    static unsigned char bytes[PLACE];
    backs = 0;
    fill(bytes, nbytes, me, 1);
    GASNET_SAFE(gasnet_AMRequestMedium0(node, TELL_BUF, bytes, nbytes));
    fill(bytes, nbytes, me, 2);
    GASNET_SAFE(gasnet_AMRequestMedium1(node, MEDIUM_FOR, bytes, nbytes, (int)nbytes));
    fill(bytes, nbytes, me, 4);
    GASNET_SAFE(
        gasnet_AMRequestLong1(node, LONG_FOR, bytes, nbytes, at(node, (size_t)PLACE * (size_t)me), (int)nbytes));
    GASNET_BLOCKUNTIL(backs == 3);
    CHECK(!nbytes || *at(me, SEGMENT / 2 + (size_t)PLACE * (size_t)node) == 77);
    GASNET_SAFE(
        gasnet_AMRequestLongAsync1(node, LONG_FOR, bytes, nbytes, at(node, (size_t)PLACE * (size_t)me), (int)nbytes));
    GASNET_BLOCKUNTIL(backs == 4);
    barrier();
    CHECK(is_filled(at(me, (size_t)PLACE * (size_t)before()), nbytes, me, 5));
    barrier();
}

/* A payload may come from the local segment. */
static void test_from_segment(int node) {
    unsigned char *own = at(me, SEGMENT - 3 * PLACE);
    backs = 0;
    fill(own, PLACE, me, 2);
    GASNET_SAFE(gasnet_AMRequestMedium1(node, MEDIUM_FOR, own, PLACE, PLACE));
    GASNET_BLOCKUNTIL(backs == 1);
    fill(own, PLACE, me, 4);
    GASNET_SAFE(gasnet_AMRequestLong1(node, LONG_FOR, own, PLACE, at(node, (size_t)PLACE * (size_t)me), PLACE));
    GASNET_BLOCKUNTIL(backs == 2);
    barrier();
}

static void test_sixteen(int node) {
    boths = 0;
    barrier();
    GASNET_SAFE(gasnet_AMRequestShort16(node, 210, NUMBERS));
    GASNET_SAFE(gasnet_AMRequestMedium16(node, BOTH, "sixteen", 8, NUMBERS));
    GASNET_SAFE(
        gasnet_AMRequestLong16(node, BOTH, "sixteen", 8, at(node, SEGMENT - 2 * PLACE + 8 * (size_t)me), NUMBERS));
    GASNET_BLOCKUNTIL(boths == 3);
    barrier();
}

/* 1,500 bytes without the headers of IPv4 and UDP, and of a message with 16 arguments. */
enum { FITS_ETHERNET = 1500 - 28 - 40 - 64 };

static void test_limits(void) {
    size_t most = getenv("GASNET_MTU") && nodes > 1 ? FITS_ETHERNET : PLACE;
    CHECK(gasnet_AMMaxArgs() == 16 && gasnet_AMMaxMedium() == most);
    CHECK(gasnet_AMMaxLongRequest() == most && gasnet_AMMaxLongReply() == most);
}

static void test_refusals(void) {
    static char bytes[PLACE + 1];
    CHECK(gasnet_AMRequestShort0((gasnet_node_t)nodes, TELL) == GASNET_ERR_BAD_ARG);
    CHECK(gasnet_AMRequestShort0(0, 127) == GASNET_ERR_BAD_ARG);
    CHECK(gasnet_AMRequestMedium0(0, TELL_BUF, bytes, PLACE + 1) == GASNET_ERR_BAD_ARG);
    CHECK(gasnet_AMRequestMedium0(0, TELL_BUF, NULL, 1) == GASNET_ERR_BAD_ARG);
    CHECK(gasnet_AMRequestLong0(0, TELL_BUF, bytes, 9, at(0, SEGMENT - 8)) == GASNET_ERR_BAD_ARG);
    CHECK(gasnet_AMRequestLong0(0, TELL_BUF, bytes, 1, bytes) == GASNET_ERR_BAD_ARG);
    CHECK(gasnet_AMGetMsgSource(NULL, NULL) == GASNET_ERR_BAD_ARG);
}

/* Many requests at once, to all nodes in turn. */
static void test_many(void) {
    backs = 0;
    for (int i = 0; i < 300; i++)
        GASNET_SAFE(gasnet_AMRequestShort0((gasnet_node_t)((me + i) % nodes), TELL));
    GASNET_BLOCKUNTIL(backs == 300);
    barrier();
}

int main(int argc, char **argv) {
    gasnet_handlerentry_t table[] = {
        { ANY, one },
        { ANY, three },
        { ANY, seven },
        { TELL, tell },
        { TELL_BUF, tell_buf },
        { SHORT_BACK, short_back },
        { MEDIUM_FOR, medium_for },
        { MEDIUM_BACK, medium_back },
        { LONG_FOR, long_for },
        { LONG_BACK, long_back },
        { 210, sixteen },
        { BOTH, both },
    };
    start(&argc, &argv, table, COUNT(table), SEGMENT);
    CHECK(table[0].index >= 128 && table[1].index >= 128 && table[0].index != table[1].index);
    test_limits();
    test_refusals();
    for (int node = 0; node < nodes; node++) {
        test_counts((me + node) % nodes, table);
        test_sixteen((me + node) % nodes);
    }
    for (int i = 0; i < 3; i++) {
        test_sizes(next(), (const size_t[]){ 0, 1, PLACE }[i]);
        test_sizes(next(), (const size_t[]){ 3, 512, PLACE - 1 }[i]);
    }
    test_from_segment(next());
    test_many();
    gasnet_exit(0);
}
