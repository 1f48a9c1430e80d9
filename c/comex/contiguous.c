/* Puts and gets of bytes that lie together. */
#include "contiguous.h"

#include <string.h>

#include "groups.h"
#include "order.h"
#include "requests.h"
#include "watch.h"

/* A put of so many bytes waits until they are there, and isn't copied on its way; a shorter one is copied, and returns.
 */
enum { COPIED = 32768 };

/* Whether a call does nothing but copy here. */
static bool is_here(int node) { return node == comexg_state.me; }

static int check(const char *call, int bytes) {
    if (bytes < 0)
        comexg_die("%s: %d bytes", call, bytes);
    return bytes;
}

static void put_there(int node, void *dst, void *src, size_t bytes) {
    const struct comexg_range range = comexg_range(dst, bytes);
    comexg_before_write(node, range);
    if (bytes > COPIED) {
        gasnet_put_bulk((gasnet_node_t)node, dst, src, bytes);
        return;
    }
    gasnet_put_nbi((gasnet_node_t)node, dst, src, bytes);
    comexg_put_begins(node, range);
}

void comexg_put(int node, void *dst, void *src, size_t bytes) {
    if (is_here(node)) {
        memmove(dst, src, bytes);
        return;
    }
    comexg_enter();
    put_there(node, dst, src, bytes);
    comexg_leave();
}

int comex_put(void *src, void *dst, int bytes, int proc, comex_group_t group) {
    const int node = comexg_node(proc, group);
    comexg_put(node, dst, src, (size_t)check("comex_put", bytes));
    return COMEX_SUCCESS;
}

int comex_get(void *src, void *dst, int bytes, int proc, comex_group_t group) {
    const int node = comexg_node(proc, group);
    const size_t length = (size_t)check("comex_get", bytes);
    if (is_here(node)) {
        memmove(dst, src, length);
        return COMEX_SUCCESS;
    }
    comexg_enter();
    comexg_before_read(node, comexg_range(src, length));
    gasnet_get_bulk(dst, (gasnet_node_t)node, src, length);
    comexg_leave();
    return COMEX_SUCCESS;
}

/* ---- Those that don't wait: with a request, or implicit where there is none. */

static void begin_put(int node, void *dst, void *src, size_t bytes, comex_request_t *request) {
    const struct comexg_range range = comexg_range(dst, bytes);
    comexg_before_write(node, range);
    if (request)
        *request = comexg_request(gasnet_put_nb_bulk((gasnet_node_t)node, dst, src, bytes));
    else
        gasnet_put_nbi_bulk((gasnet_node_t)node, dst, src, bytes);
    comexg_put_begins(node, range);
}

int comex_nbput(void *src, void *dst, int bytes, int proc, comex_group_t group, comex_request_t *request) {
    const int node = comexg_node(proc, group);
    const size_t length = (size_t)check("comex_nbput", bytes);
    if (is_here(node)) {
        if (request)
            *request = comexg_request(GASNET_INVALID_HANDLE);
        return comex_put(src, dst, bytes, proc, group);
    }
    comexg_enter();
    begin_put(node, dst, src, length, request);
    comexg_leave();
    return COMEX_SUCCESS;
}

static void begin_get(int node, void *dst, void *src, size_t bytes, comex_request_t *request) {
    const struct comexg_range range = comexg_range(src, bytes);
    comexg_before_read(node, range);
    if (request)
        *request = comexg_request(gasnet_get_nb_bulk(dst, (gasnet_node_t)node, src, bytes));
    else
        gasnet_get_nbi_bulk(dst, (gasnet_node_t)node, src, bytes);
    comexg_get_begins(node, range);
}

int comex_nbget(void *src, void *dst, int bytes, int proc, comex_group_t group, comex_request_t *request) {
    const int node = comexg_node(proc, group);
    const size_t length = (size_t)check("comex_nbget", bytes);
    if (is_here(node)) {
        if (request)
            *request = comexg_request(GASNET_INVALID_HANDLE);
        return comex_get(src, dst, bytes, proc, group);
    }
    comexg_enter();
    begin_get(node, dst, src, length, request);
    comexg_leave();
    return COMEX_SUCCESS;
}
