/* Transfers of many small pieces, which go packed: lengths around the limits of packs, sources that overlap, lists that
 * change behind the call, long and short pieces together, and targets that compute. What came is compared with a plain
 * loop's bytes. The first argument says which of these:
 *
 *   all         the first four of those that follow
 *   lengths     each length and count, by puts and gets, in and outside of the segment
 *   sources     ranges of a source that share bytes
 *   mixed       vectors of long and short ranges, several at once, whose lists change behind the calls
 *   computes    the target makes no call until the bytes are there
 *   forged WHAT a message that names bytes outside of the segment, or no pieces: nothing is written, and the job ends
 *   counted     many pieces, of which GASNET_COUNTS tells in how many datagrams they went
 *   own N       the client has a handler at the index of packs on node N, or on all nodes where N is negative
 */
#define GASNET_SEQ 1
#include "check.h"

enum { SEGMENT = 1 << 20, ROOM = 1 << 18, PACKS = 251, MOST = 600, LISTS = 4 };

static unsigned char outside[ROOM], want[ROOM], came[ROOM];
static unsigned state;

static unsigned any(unsigned below) {
    state = state * 1664525 + 1013904223;
    return (state >> 8) % below;
}

/* This node's room in the segment of another one, and the own one's place for what isn't sent. */
static unsigned char *far_room(void) { return at(next(), 0); }
static unsigned char *near_room(bool is_in_segment) { return is_in_segment ? at(me, ROOM) : outside; }

static void put_far(const unsigned char *bytes, size_t nbytes) {
    memcpy(at(me, 2 * ROOM), bytes, nbytes);
    gasnet_put_bulk((gasnet_node_t)next(), far_room(), at(me, 2 * ROOM), nbytes);
}

/* Whether the far room has these bytes. */
static bool is_far(const unsigned char *bytes, size_t nbytes) {
    gasnet_get_bulk(came, (gasnet_node_t)next(), far_room(), nbytes);
    return !memcmp(came, bytes, nbytes);
}

/* ---- Lengths and counts. */

/* A put, or a get, of so many pieces that are three lengths apart there and lie together here. */
static void test_length(size_t length, size_t count, bool is_put, bool is_in_segment) {
    unsigned char *near = near_room(is_in_segment);
    const size_t there[] = { 3 * length }, here[] = { length }, counts[] = { length, count },
                 used = 3 * length * count + 1000;
    CHECK(used <= ROOM);
    fill(came, used, me, 1);
    put_far(came, used);
    memcpy(want, came, used);
    fill(near, used, me, 2);
    if (is_put) {
        for (size_t i = 0; i < count; i++)
            memcpy(want + 3 * length * i, near + length * i, length);
        gasnet_puts_bulk((gasnet_node_t)next(), far_room(), there, near, here, counts, 1);
        CHECK(is_far(want, used));
        return;
    }
    gasnet_gets_bulk(near, here, (gasnet_node_t)next(), far_room(), there, counts, 1);
    fill(want, used, me, 2);
    for (size_t i = 0; i < count; i++)
        memcpy(want + length * i, came + 3 * length * i, length);
    CHECK(!memcmp(near, want, used));
}

static void test_lengths(void) {
    static const size_t lengths[] = { 1,    2,    3,    4,    5,    7,    8,    9,    15,   16,   17,   63,    64,
                                      65,   255,  256,  257,  504,  505,  512,  513,  715,  716,  717,  1424,  1432,
                                      1433, 4095, 4096, 4097, 8143, 8144, 8184, 8185, 8191, 8192, 8193, 16384, 16385 };
    static const size_t counts[] = { 0, 1, 2, 3, 5, 19 };
    for (int i = 0; i < COUNT(lengths); i++)
        for (int k = 0; k < COUNT(counts) && (lengths[i] < 2000 || counts[k] < 4); k++)
            for (int way = 0; way < 4; way++)
                test_length(lengths[i], counts[k], way & 1, way & 2);
    test_length(1, 20000, true, false);
    test_length(1, 20000, false, true);
    test_length(8, 10000, true, true);
    test_length(8, 10000, false, false);
    test_length(0, 7, true, false);
}

/* ---- Sources that overlap. */

/* Pieces of the source are `step` bytes apart, fewer than a piece has, or all the same. */
static void test_source(size_t length, size_t step, size_t rows, bool is_put) {
    const size_t source[] = { step, 1 }, target[] = { length + 1, 500 * (length + 1) },
                 counts[] = { length, 400, rows };
    const size_t used = 120000;
    unsigned char *from = is_put ? outside : came, *to = is_put ? want : near_room(true);
    fill(outside, used, me, 3);
    fill(came, used, me, 4);
    put_far(came, used);
    memcpy(want, is_put ? came : to, used);
    for (size_t row = 0; row < rows; row++)
        for (size_t i = 0; i < counts[1]; i++)
            memcpy(want + row * target[1] + i * target[0], from + row + i * step, length);
    if (is_put)
        gasnet_puts_bulk((gasnet_node_t)next(), far_room(), target, outside, source, counts, 2);
    else
        gasnet_gets_bulk(to, target, (gasnet_node_t)next(), far_room(), source, counts, 2);
    CHECK(is_put ? is_far(want, used) : !memcmp(to, want, used));
}

static void test_sources(void) {
    for (size_t length = 1; length < 70; length += 11)
        for (size_t step = 0; step <= length; step += length / 2 + 1)
            for (size_t rows = 0; rows < 4; rows += 3) {
                test_source(length, step, rows, true);
                test_source(length, step, rows, false);
            }
}

/* ---- Mixed lengths, and lists that change. */

struct lists {
    gasnet_memvec_t far[MOST], near[MOST];
    size_t fars, nears;
};

/* Ranges of so many bytes together, some of them empty or long. Where the last one ends. */
static size_t make_list(gasnet_memvec_t *list, size_t *count, unsigned char *room, size_t offset, size_t total) {
    size_t made = 0;
    for (*count = 0; made < total; ++*count) {
        size_t left = total - made, len = any(9) ? any(40) : any(3) ? any(700) : any(20000);
        if (len > left || *count + 1 == MOST)
            len = left;
        list[*count] = (gasnet_memvec_t){ room + offset, len };
        made += len;
        offset += len + any(2) * any(90);
    }
    return offset;
}

/* Copies between the two sides, byte by byte. */
static void copy_lists(const struct lists *lists, bool to_far, unsigned char *far, unsigned char *near,
                       const unsigned char *near_at) {
    size_t f = 0, n = 0, x = 0, y = 0;
    while (f < lists->fars && n < lists->nears) {
        if (x == lists->far[f].len) {
            f++, x = 0;
            continue;
        }
        if (y == lists->near[n].len) {
            n++, y = 0;
            continue;
        }
        unsigned char *there = far + ((unsigned char *)lists->far[f].addr - far_room()) + x++,
                      *here = near + ((unsigned char *)lists->near[n].addr - near_at) + y++;
        *(to_far ? there : here) = *(to_far ? here : there);
    }
}

/* Some transfers at once. As each one began its lists are overwritten; a handle is complete only when the bytes are
 * there. */
static void test_mixed(bool is_put, bool is_in_segment, bool is_implicit) {
    static struct lists lists[LISTS], used;
    static unsigned char here[ROOM];
    gasnet_handle_t handles[LISTS];
    unsigned char *near = near_room(is_in_segment);
    size_t far_at = 0, near_at = 0;
    fill(came, ROOM, me, 5);
    put_far(came, ROOM);
    fill(near, ROOM, me, 6);
    memcpy(want, is_put ? came : near, ROOM);
    memcpy(here, is_put ? near : came, ROOM);
    for (int i = 0; i < LISTS; i++) {
        const size_t total = any(30000);
        far_at = make_list(lists[i].far, &lists[i].fars, far_room(), far_at, total);
        near_at = make_list(lists[i].near, &lists[i].nears, near, near_at, total);
        CHECK(far_at <= ROOM && near_at <= ROOM);
        copy_lists(&lists[i], is_put, is_put ? want : here, is_put ? here : want, near);
    }
    for (int i = 0; i < LISTS; i++) {
        used = lists[i];
        if (is_put && is_implicit)
            gasnet_putv_nbi_bulk((gasnet_node_t)next(), used.fars, used.far, used.nears, used.near);
        else if (is_put)
            handles[i] = gasnet_putv_nb_bulk((gasnet_node_t)next(), used.fars, used.far, used.nears, used.near);
        else if (is_implicit)
            gasnet_getv_nbi_bulk(used.nears, used.near, (gasnet_node_t)next(), used.fars, used.far);
        else
            handles[i] = gasnet_getv_nb_bulk(used.nears, used.near, (gasnet_node_t)next(), used.fars, used.far);
        memset(&used, 0x55, sizeof used);
    }
    if (is_implicit && is_put)
        gasnet_wait_syncnbi_puts();
    else if (is_implicit)
        gasnet_wait_syncnbi_gets();
    else
        while (gasnet_try_syncnb_all(handles, LISTS) == GASNET_ERR_NOT_READY)
            GASNET_SAFE(gasnet_AMPoll());
    CHECK(is_put ? is_far(want, ROOM) : !memcmp(near, want, ROOM));
}

/* Strides and counts change behind the calls too, as do places. */
static void test_changes(bool is_put) {
    enum { LENGTH = 8, COLUMNS = 3000 };
    static void *far[COLUMNS], *near[COLUMNS];
    size_t there[] = { 2 * LENGTH, 90000 }, here[] = { LENGTH, COLUMNS * LENGTH }, counts[] = { LENGTH, COLUMNS, 2 };
    unsigned char *room = near_room(false);
    gasnet_handle_t handles[2];
    fill(came, ROOM, me, 7);
    put_far(came, ROOM);
    fill(room, ROOM, me, 8);
    memcpy(want, is_put ? came : room, ROOM);
    for (size_t i = 0; i < 3 * COLUMNS; i++) {
        const size_t row = i / COLUMNS, column = i % COLUMNS, y = row * here[1] + column * LENGTH,
                     x = row * there[1] + 2 * LENGTH * (row < 2 ? column : (column * 7) % COLUMNS);
        memcpy(want + (is_put ? x : y), (is_put ? room : came) + (is_put ? y : x), LENGTH);
        if (row == 2) {
            far[column] = far_room() + x;
            near[column] = room + y;
        }
    }
    if (is_put) {
        handles[0] = gasnet_puts_nb_bulk((gasnet_node_t)next(), far_room(), there, room, here, counts, 2);
        handles[1] = gasnet_puti_nb_bulk((gasnet_node_t)next(), COLUMNS, far, LENGTH, COLUMNS, near, LENGTH);
    } else {
        handles[0] = gasnet_gets_nb_bulk(room, here, (gasnet_node_t)next(), far_room(), there, counts, 2);
        handles[1] = gasnet_geti_nb_bulk(COLUMNS, near, LENGTH, (gasnet_node_t)next(), COLUMNS, far, LENGTH);
    }
    there[0] = there[1] = here[0] = here[1] = counts[1] = counts[2] = 77;
    memset(far, 0x33, sizeof far);
    memset(near, 0x33, sizeof near);
    gasnet_wait_syncnb_all(handles, 2);
    CHECK(is_put ? is_far(want, ROOM) : !memcmp(room, want, ROOM));
}

static void test_all_mixed(void) {
    for (int round = 0; round < 2; round++)
        for (int way = 0; way < 8; way++)
            test_mixed(way & 1, way & 2, way & 4);
    test_changes(true);
    test_changes(false);
}

/* ---- A target that computes: it makes no call until the last byte of the puts is there. */

static void test_computes(void) {
    enum { LENGTH = 8, COLUMNS = 10000 };
    const size_t there[] = { 3 * LENGTH }, here[] = { LENGTH }, counts[] = { LENGTH, COLUMNS };
    volatile unsigned char *last = at(me, SEGMENT - 1);
    const char *progress = getenv("GASNET_PROGRESS");
    *last = 0;
    memset(at(me, 0), 1, ROOM);
    barrier();
    if (me % 2 && !(progress && !strcmp(progress, "poll")))
        while (*last != 9)
            continue;
    if (me % 2 == 0 && next() != me) {
        fill(outside, LENGTH * COLUMNS, me, 9);
        gasnet_puts_bulk((gasnet_node_t)next(), far_room(), there, outside, here, counts, 1);
        gasnet_gets_bulk(came, here, (gasnet_node_t)next(), far_room(), there, counts, 1);
        CHECK(is_filled(came, LENGTH * COLUMNS, me, 9));
        gasnet_put_val((gasnet_node_t)next(), at(next(), SEGMENT - 1), 9, 1);
    }
    barrier();
}

/* ---- Messages that no node would send (c/src/runs.h says how they are written). Their target ends the job, and tells
 * whether something was written there. */

static const struct forged {
    const char *what;
    int kind, nbytes;
    unsigned char runs[16];
    size_t length;
} all_forged[] = {
    { "behind", 0, 8, { 0x80, 0x80, 0x80, 0x01, 16 }, 5 },     /* 1 MiB behind the beginning */
    { "beyond", 0, 8, { 0xf2, 0xff, 0x7f, 16 }, 4 },           /* the last byte is behind the end */
    { "before", 0, 8, { 0x01, 16 }, 2 },                       /* one byte before the beginning */
    { "second", 0, 16, { 0x00, 17, 2, 0xf2, 0xff, 0x7f }, 6 }, /* the second one of a run is beyond */
    { "turned", 0, 24, { 0x10, 17, 3, 0x0f }, 4 },             /* the third one is before the beginning */
    { "fewer", 0, 9, { 0x00, 16 }, 2 },                        /* another number of bytes than is said */
    { "more", 0, 7, { 0x00, 16 }, 2 },
    { "broken", 0, 8, { 0x00, 0x80 }, 2 }, /* no number */
    { "empty", 0, 8, { 0 }, 0 },
    { "kind", 2, 8, { 0x00, 16 }, 2 },
    { "all", 0, 0x7fffffff, { 0x00, 16 }, 2 },
    { "get", 1, 8, { 0x80, 0x80, 0x80, 0x01, 16 }, 5 },
    { "right", 0, 16, { 0x00, 17, 2, 0xf0, 0xff, 0x7f }, 6 }, /* the first and the last 8 bytes */
};

/* At the end of the process: what stands in the segment. */
static void tell_segment(void) {
    const unsigned char *bytes = at(me, 0);
    const bool is_same = is_all(bytes, SEGMENT, 1), is_written = is_all(bytes, 8, 0xee) &&
                                                                 is_all(bytes + 8, SEGMENT - 16, 1) &&
                                                                 is_all(bytes + SEGMENT - 8, 8, 0xee);
    if (me)
        printf("node %d has %s\n", me, is_same ? "what it had" : is_written ? "what was put" : "something else");
}

/* Node 0 sends a forged message to node 1. */
static void test_forged(const char *what) {
    unsigned char payload[64];
    memset(payload, 0xee, sizeof payload);
    memset(at(me, 0), 1, SEGMENT);
    CHECK(!atexit(tell_segment));
    barrier();
    for (int i = 0; me == 0 && i < COUNT(all_forged); i++) {
        const struct forged *one = &all_forged[i];
        const size_t front = one->kind == 0 && one->nbytes < 32 ? (size_t)one->nbytes : 0;
        if (strcmp(one->what, what))
            continue;
        memcpy(payload + front, one->runs, one->length);
        GASNET_SAFE(gasnet_AMRequestMedium2(1, PACKS, payload, front + one->length, one->kind, one->nbytes));
    }
    for (;;)
        GASNET_BLOCKUNTIL(false);
}

/* ---- How much is sent: some 60,000 pieces, some of them in no order. */

static void test_counted(void) {
    test_length(8, 10000, true, false);
    test_length(8, 10000, false, true);
    for (int i = 0; i < 2; i++) {
        test_changes(true);
        test_changes(false);
    }
}

/* ---- The beginning. */

static int own_runs;

static void own(gasnet_token_t token, void *bytes, size_t length, int kind, int said) {
    (void)token;
    CHECK(length == 3 && !memcmp(bytes, "own", 3) && kind == 0 && said == 1);
    own_runs++;
}

/* Pieces go one by one from and to a node whose client has the index itself, and its handler runs for its messages. */
static void test_own(int which) {
    test_length(8, 500, true, false);
    test_length(8, 500, false, true);
    test_changes(false);
    if (which < 0 || which == next())
        GASNET_SAFE(gasnet_AMRequestMedium2((gasnet_node_t)next(), PACKS, "own", 3, 0, 1));
    if (which < 0 || which == me)
        GASNET_BLOCKUNTIL(own_runs == 1);
    barrier();
}

int main(int argc, char **argv) {
    gasnet_handlerentry_t table[] = { { PACKS, own } };
    const char *way = argc > 1 ? argv[1] : "all", *rank = getenv("GASNET_RANK");
    const int which = argc > 2 ? atoi(argv[2]) : 0;
    const bool is_all_ways = !strcmp(way, "all"), is_own = !strcmp(way, "own");
    start(&argc, &argv, table, is_own && (which < 0 || (rank && atoi(rank) == which)), SEGMENT);
    state = (unsigned)me + 1;
    barrier();
    if (is_all_ways || !strcmp(way, "lengths"))
        test_lengths();
    if (is_all_ways || !strcmp(way, "sources"))
        test_sources();
    if (is_all_ways || !strcmp(way, "mixed"))
        test_all_mixed();
    barrier();
    if (is_all_ways || !strcmp(way, "computes"))
        test_computes();
    if (!strcmp(way, "forged"))
        test_forged(argc > 2 ? argv[2] : "");
    if (is_own)
        test_own(which);
    if (!strcmp(way, "counted"))
        test_counted();
    barrier();
    gasnet_exit(0);
}
