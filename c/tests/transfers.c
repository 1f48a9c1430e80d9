/* Puts, gets and memsets: blocking, with handles, implicit, in access regions, and of values; with the near side inside
 * and outside the segment, to the next node and to the local one, and many at once. */
#define GASNET_SEQ 1
#include "check.h"

enum { SEGMENT = 8 << 20, MOST = 300000, FAR = 1 << 20, NEAR = 2 << 20, MANY = 2000 };

static unsigned char outside[MOST], back[MOST];
static const size_t sizes[] = { 0, 1, 7, 8, 8191, 8192, 8193, 16384, 16385, 65536, MOST };

static unsigned char *near_side(bool inside) { return inside ? at(me, NEAR) : outside; }
static unsigned char *back_side(bool inside) { return inside ? at(me, NEAR + FAR) : back; }

static void test_blocking(int node, size_t size, bool inside, int when) {
    unsigned char *from = near_side(inside), *to = back_side(inside);
    fill(from, size, me, when);
    gasnet_put(node, at(node, FAR), from, size);
    memset(to, 0, size);
    gasnet_get(to, node, at(node, FAR), size);
    CHECK(is_filled(to, size, me, when));
    fill(from, size, me, when + 1);
    gasnet_put_bulk(node, at(node, FAR), from, size);
    gasnet_get_bulk(to, node, at(node, FAR), size);
    CHECK(is_filled(to, size, me, when + 1));
    gasnet_memset(node, at(node, FAR), 200 + when, size);
    gasnet_get(to, node, at(node, FAR), size);
    CHECK(is_all(to, size, (unsigned char)(200 + when)));
}

static void test_handles(int node, size_t size, bool inside, int when) {
    unsigned char *from = near_side(inside), *to = back_side(inside);
    fill(from, size, me, when);
    gasnet_handle_t handle = gasnet_put_nb(node, at(node, FAR), from, size);
    memset(from, 9, size); /* the source may be used again */
    gasnet_wait_syncnb(handle);
    handle = gasnet_get_nb(to, node, at(node, FAR), size);
    while (gasnet_try_syncnb(handle) == GASNET_ERR_NOT_READY)
        continue;
    CHECK(is_filled(to, size, me, when));
    fill(from, size, me, when + 1);
    gasnet_wait_syncnb(gasnet_put_nb_bulk(node, at(node, FAR), from, size));
    gasnet_wait_syncnb(gasnet_get_nb_bulk(to, node, at(node, FAR), size));
    CHECK(is_filled(to, size, me, when + 1));
    gasnet_wait_syncnb(gasnet_memset_nb(node, at(node, FAR), when, size));
    gasnet_get(to, node, at(node, FAR), size);
    CHECK(is_all(to, size, (unsigned char)when));
}

static void test_implicit(int node, size_t size, bool inside, int when) {
    unsigned char *from = near_side(inside), *to = back_side(inside);
    fill(from, size, me, when);
    gasnet_put_nbi(node, at(node, FAR), from, size);
    memset(from, 9, size);
    gasnet_wait_syncnbi_puts();
    gasnet_get_nbi(to, node, at(node, FAR), size);
    gasnet_wait_syncnbi_gets();
    CHECK(is_filled(to, size, me, when));
    fill(from, size, me, when + 1);
    gasnet_put_nbi_bulk(node, at(node, FAR), from, size);
    while (gasnet_try_syncnbi_puts() == GASNET_ERR_NOT_READY)
        continue;
    gasnet_get_nbi_bulk(to, node, at(node, FAR), size);
    while (gasnet_try_syncnbi_gets() == GASNET_ERR_NOT_READY)
        continue;
    CHECK(is_filled(to, size, me, when + 1));
    gasnet_memset_nbi(node, at(node, FAR), when, size);
    gasnet_wait_syncnbi_all();
    gasnet_get_nbi(to, node, at(node, FAR), size);
    while (gasnet_try_syncnbi_all() == GASNET_ERR_NOT_READY)
        continue;
    CHECK(is_all(to, size, (unsigned char)when));
}

static void test_region(int node, int when) {
    unsigned char *from = near_side(false), *to = back_side(false);
    fill(from, 10000, me, when);
    gasnet_begin_nbi_accessregion();
    for (size_t i = 0; i < 10; i++)
        gasnet_put_nbi(node, at(node, FAR + 1000 * i), from + 1000 * i, 1000);
    gasnet_handle_t handle = gasnet_end_nbi_accessregion();
    gasnet_wait_syncnbi_all(); /* that doesn't speak of the region */
    gasnet_wait_syncnb(handle);
    gasnet_begin_nbi_accessregion();
    for (size_t i = 0; i < 10; i++)
        gasnet_get_nbi(to + 1000 * i, node, at(node, FAR + 1000 * i), 1000);
    gasnet_wait_syncnb(gasnet_end_nbi_accessregion());
    CHECK(is_filled(to, 10000, me, when));
    gasnet_begin_nbi_accessregion();
    CHECK(gasnet_end_nbi_accessregion() == GASNET_INVALID_HANDLE);
}

static void test_values(int node) {
    const gasnet_register_value_t value = 0x8877665544332211u;
    memset(back, 0, 64);
    gasnet_memset(node, at(node, FAR), 0, 64);
    for (size_t nbytes = 1; nbytes <= 8; nbytes++) {
        gasnet_register_value_t wanted = nbytes == 8 ? value : value & (((gasnet_register_value_t)1 << 8 * nbytes) - 1);
        gasnet_put_val(node, at(node, FAR), value, nbytes);
        CHECK(gasnet_get_val(node, at(node, FAR), nbytes) == wanted);
        gasnet_wait_syncnb(gasnet_put_nb_val(node, at(node, FAR + 8), value, nbytes));
        gasnet_put_nbi_val(node, at(node, FAR + 16), value, nbytes);
        gasnet_wait_syncnbi_puts();
        gasnet_valget_handle_t first = gasnet_get_nb_val(node, at(node, FAR + 8), nbytes);
        gasnet_valget_handle_t second = gasnet_get_nb_val(node, at(node, FAR + 16), nbytes);
        CHECK(gasnet_wait_syncnb_valget(second) == wanted);
        CHECK(gasnet_wait_syncnb_valget(first) == wanted);
    }
}

/* More at once than the endpoint keeps. */
static void test_many(int node) {
    static gasnet_handle_t handles[MANY];
    static uint32_t numbers[MANY], came[MANY];
    for (uint32_t i = 0; i < MANY; i++) {
        numbers[i] = i * 2654435761u + (uint32_t)me;
        handles[i] = gasnet_put_nb(node, at(node, FAR + 4 * i), &numbers[i], 4);
    }
    gasnet_wait_syncnb_all(handles, MANY);
    CHECK(handles[0] == GASNET_INVALID_HANDLE && handles[MANY - 1] == GASNET_INVALID_HANDLE);
    for (uint32_t i = 0; i < MANY; i++)
        handles[i] = gasnet_get_nb_bulk(&came[i], node, at(node, FAR + 4 * i), 4);
    for (int left = MANY, some; left; left -= some) {
        gasnet_wait_syncnb_some(handles, MANY);
        some = 0;
        for (uint32_t i = 0; i < MANY; i++)
            if (handles[i] == GASNET_INVALID_HANDLE && came[i] == numbers[i]) {
                came[i] = ~numbers[i]; /* counted once */
                some++;
            }
    }
    CHECK(gasnet_try_syncnb_some(handles, MANY) == GASNET_OK && gasnet_try_syncnb_all(handles, MANY) == GASNET_OK);
}

/* Large ones at once to all nodes, each other one from the segment. */
static void test_crowd(int when) {
    gasnet_handle_t handles[2 * GASNET_MAXNODES];
    size_t part = 100000;
    int count = 0;
    barrier();
    fill(outside, part, me, when);
    fill(at(me, NEAR), part, me, when + 1);
    for (int node = 0; node < nodes; node++) {
        handles[count++] = gasnet_put_nb_bulk(node, at(node, 3 * (1 << 20) + 2 * part * (size_t)me), outside, part);
        handles[count++] =
            gasnet_put_nb_bulk(node, at(node, 3 * (1 << 20) + (2 * (size_t)me + 1) * part), at(me, NEAR), part);
    }
    gasnet_wait_syncnb_all(handles, (size_t)count);
    barrier();
    for (int node = 0; node < nodes; node++) {
        CHECK(is_filled(at(me, 3 * (1 << 20) + 2 * part * (size_t)node), part, node, when));
        CHECK(is_filled(at(me, 3 * (1 << 20) + (2 * (size_t)node + 1) * part), part, node, when + 1));
    }
    barrier();
}

int main(int argc, char **argv) {
    start(&argc, &argv, NULL, 0, SEGMENT);
    for (int own = 0; own < (nodes > 1 ? 2 : 1); own++) {
        int node = own ? me : next(), when = 0;
        for (size_t i = 0; i < sizeof sizes / sizeof *sizes; i++)
            for (int inside = 0; inside < 2; inside++) {
                test_blocking(node, sizes[i], inside, when += 2);
                test_handles(node, sizes[i], inside, when += 2);
                test_implicit(node, sizes[i], inside, when += 2);
            }
        test_region(node, 3);
        test_values(node);
        test_many(node);
        barrier();
    }
    test_crowd(50);
    CHECK(gasnet_try_syncnb(GASNET_INVALID_HANDLE) == GASNET_OK);
    gasnet_exit(0);
}
