/* Puts and gets of many pieces: vector, indexed and strided, in three ways, to the next node and to the local one. What
 * came is compared with the bytes that the definitions name, one by one. */
#define GASNET_SEQ 1
#include "check.h"

enum { SEGMENT = 1 << 20, FAR = 1 << 18, ROOM = 1 << 17, MOST = 4096, RANGES = 40 };
enum way { BLOCKING, EXPLICIT, IMPLICIT, WAYS };

static unsigned char near_room[ROOM], far_copy[ROOM];
static size_t far_bytes[MOST], near_bytes[MOST]; /* the offsets of the pairs of bytes, in order */
static size_t pairs;
static unsigned state;

static unsigned any(unsigned below) {
    state = state * 1664525 + 1013904223;
    return (state >> 8) % below;
}

static unsigned char *far_room(int node) { return at(node, FAR + (size_t)me * ROOM); }

static void sync(enum way way, gasnet_handle_t handle) {
    if (way == EXPLICIT)
        gasnet_wait_syncnb(handle);
    else if (way == IMPLICIT)
        gasnet_wait_syncnbi_all();
}

/* Fills both rooms before a transfer. */
static void prepare(int node, int when) {
    fill(near_room, ROOM, me, when);
    fill(far_copy, ROOM, me, when + 1);
    gasnet_put(node, far_room(node), far_copy, ROOM);
}

/* Compares both rooms with what the pairs say of a put, or of a get. */
static void compare(int node, bool is_put, int when) {
    static unsigned char want[ROOM], came[ROOM];
    fill(want, ROOM, me, is_put ? when + 1 : when);
    for (size_t i = 0; i < pairs; i++)
        want[is_put ? far_bytes[i] : near_bytes[i]] =
            is_put ? mark(me, near_bytes[i], when) : mark(me, far_bytes[i], when + 1);
    if (is_put)
        gasnet_get(came, node, far_room(node), ROOM);
    CHECK(!memcmp(want, is_put ? came : near_room, ROOM));
}

/* ---- Vector. */

/* Ranges of so many bytes together, some of them empty, apart from one another, and their bytes in order. */
static size_t make_list(unsigned char *room, gasnet_memvec_t *list, size_t total, size_t *bytes) {
    size_t count = 0, offset = any(50), made = 0;
    while (made < total || count < 3) {
        size_t left = total - made, len = any(200);
        if (len > left || count + 1 == RANGES)
            len = left;
        list[count++] = (gasnet_memvec_t){ room + offset, len };
        for (size_t i = 0; i < len; i++)
            bytes[made++] = offset + i;
        offset += len + any(2) * any(900);
    }
    return count;
}

static void putv(enum way way, int node, size_t fars, gasnet_memvec_t *far, size_t nears, gasnet_memvec_t *near) {
    gasnet_handle_t handle = GASNET_INVALID_HANDLE;
    if (way == BLOCKING)
        gasnet_putv_bulk(node, fars, far, nears, near);
    else if (way == EXPLICIT)
        handle = gasnet_putv_nb_bulk(node, fars, far, nears, near);
    else
        gasnet_putv_nbi_bulk(node, fars, far, nears, near);
    sync(way, handle);
}

static void getv(enum way way, int node, size_t fars, gasnet_memvec_t *far, size_t nears, gasnet_memvec_t *near) {
    gasnet_handle_t handle = GASNET_INVALID_HANDLE;
    if (way == BLOCKING)
        gasnet_getv_bulk(nears, near, node, fars, far);
    else if (way == EXPLICIT)
        handle = gasnet_getv_nb_bulk(nears, near, node, fars, far);
    else
        gasnet_getv_nbi_bulk(nears, near, node, fars, far);
    sync(way, handle);
}

static void test_vector(int node, enum way way, bool is_put, int when) {
    gasnet_memvec_t far[RANGES], near[RANGES];
    pairs = any(MOST);
    size_t fars = make_list(far_room(node), far, pairs, far_bytes),
           nears = make_list(near_room, near, pairs, near_bytes);
    prepare(node, when);
    (is_put ? putv : getv)(way, node, fars, far, nears, near);
    compare(node, is_put, when);
}

/* ---- Indexed. */

static void make_places(unsigned char *room, void **places, size_t count, size_t each, size_t *bytes) {
    size_t offset = any(50);
    for (size_t i = 0; i < count; i++) {
        places[i] = room + offset;
        for (size_t k = 0; k < each; k++)
            bytes[i * each + k] = offset + k;
        offset += each + any(2) * any(300);
    }
}

static void puti(enum way way, int node, size_t fars, void **far, size_t far_len, size_t nears, void **near,
                 size_t near_len) {
    gasnet_handle_t handle = GASNET_INVALID_HANDLE;
    if (way == BLOCKING)
        gasnet_puti_bulk(node, fars, far, far_len, nears, near, near_len);
    else if (way == EXPLICIT)
        handle = gasnet_puti_nb_bulk(node, fars, far, far_len, nears, near, near_len);
    else
        gasnet_puti_nbi_bulk(node, fars, far, far_len, nears, near, near_len);
    sync(way, handle);
}

static void geti(enum way way, int node, size_t fars, void **far, size_t far_len, size_t nears, void **near,
                 size_t near_len) {
    gasnet_handle_t handle = GASNET_INVALID_HANDLE;
    if (way == BLOCKING)
        gasnet_geti_bulk(nears, near, near_len, node, fars, far, far_len);
    else if (way == EXPLICIT)
        handle = gasnet_geti_nb_bulk(nears, near, near_len, node, fars, far, far_len);
    else
        gasnet_geti_nbi_bulk(nears, near, near_len, node, fars, far, far_len);
    sync(way, handle);
}

static void test_indexed(int node, enum way way, bool is_put, int when) {
    void *far[64], *near[64];
    size_t far_len = 1 + any(8), near_len = far_len * (1 + any(3)), nears = 1 + any(16),
           fars = nears * near_len / far_len;
    pairs = nears * near_len;
    make_places(far_room(node), far, fars, far_len, far_bytes);
    make_places(near_room, near, nears, near_len, near_bytes);
    prepare(node, when);
    (is_put ? puti : geti)(way, node, fars, far, far_len, nears, near, near_len);
    compare(node, is_put, when);
}

/* ---- Strided. */

/* Strides of three levels, of which no two places share a byte. */
static void make_strides(const size_t *count, size_t *strides) {
    size_t least = count[0];
    for (int level = 0; level < 3; level++) {
        strides[level] = least + any(2) * any(20);
        least = strides[level] * count[level + 1];
    }
}

static void make_pairs(const size_t *count, const size_t *strides, size_t *bytes) {
    size_t made = 0;
    for (size_t c = 0; c < count[3]; c++)
        for (size_t b = 0; b < count[2]; b++)
            for (size_t a = 0; a < count[1]; a++)
                for (size_t x = 0; x < count[0]; x++)
                    bytes[made++] = c * strides[2] + b * strides[1] + a * strides[0] + x;
}

static void puts_by(enum way way, int node, const size_t *far, const size_t *near, const size_t *count) {
    gasnet_handle_t handle = GASNET_INVALID_HANDLE;
    if (way == BLOCKING)
        gasnet_puts_bulk(node, far_room(node), far, near_room, near, count, 3);
    else if (way == EXPLICIT)
        handle = gasnet_puts_nb_bulk(node, far_room(node), far, near_room, near, count, 3);
    else
        gasnet_puts_nbi_bulk(node, far_room(node), far, near_room, near, count, 3);
    sync(way, handle);
}

static void gets_by(enum way way, int node, const size_t *far, const size_t *near, const size_t *count) {
    gasnet_handle_t handle = GASNET_INVALID_HANDLE;
    if (way == BLOCKING)
        gasnet_gets_bulk(near_room, near, node, far_room(node), far, count, 3);
    else if (way == EXPLICIT)
        handle = gasnet_gets_nb_bulk(near_room, near, node, far_room(node), far, count, 3);
    else
        gasnet_gets_nbi_bulk(near_room, near, node, far_room(node), far, count, 3);
    sync(way, handle);
}

static void test_strided(int node, enum way way, bool is_put, int when) {
    const size_t count[] = { 1 + any(12), 1 + any(6), 1 + any(6), any(6) };
    size_t far[3], near[3];
    make_strides(count, far);
    make_strides(count, near);
    make_pairs(count, far, far_bytes);
    make_pairs(count, near, near_bytes);
    pairs = count[0] * count[1] * count[2] * count[3];
    prepare(node, when);
    (is_put ? puts_by : gets_by)(way, node, far, near, count);
    compare(node, is_put, when);
}

int main(int argc, char **argv) {
    void (*const tests[])(int, enum way, bool, int) = { test_vector, test_indexed, test_strided };
    start(&argc, &argv, NULL, 0, SEGMENT + 16 * (uintptr_t)ROOM);
    state = (unsigned)me + 1;
    barrier();
    for (int round = 0; round < 3; round++)
        for (int test = 0; test < COUNT(tests); test++)
            for (enum way way = BLOCKING; way < WAYS; way++)
                for (int is_put = 0; is_put < 2; is_put++) {
                    tests[test](next(), way, is_put, round);
                    tests[test](me, way, is_put, round + 1);
                }
    barrier();
    gasnet_exit(0);
}
