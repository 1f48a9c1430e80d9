/* Strided puts and gets. */
#include <string.h>

#include "contiguous.h"
#include "groups.h"
#include "requests.h"
#include "shape.h"
#include "watch.h"

/* One strided call: its shape, its sides, and the node of the far one. */
struct strided {
    struct comexg_shape shape;
    void *src, *dst;
    int node;
};

static void copy_plane(void *nothing, const struct comexg_shape *shape, char *src, char *dst) {
    (void)nothing;
    for (size_t row = 0; row < comexg_rows(shape); row++)
        memmove(dst + row * shape->dst_stride[0], src + row * shape->src_stride[0], shape->count[0]);
}

/* Does a call that needs no other process. */
static bool is_done_here(const struct strided *call) {
    if (comexg_is_empty(&call->shape))
        return true;
    if (call->node != comexg_state.me)
        return false;
    comexg_each_plane(&call->shape, call->src, call->dst, copy_plane, NULL);
    return true;
}

/* ---- Puts. */

static gasnet_handle_t begin_put(const struct strided *call) {
    const struct comexg_shape *shape = &call->shape;
    if (is_done_here(call))
        return GASNET_INVALID_HANDLE;
    const struct comexg_range range = comexg_extent(shape, shape->dst_stride, call->dst);
    comexg_before_write(call->node, range);
    comexg_put_begins(call->node, range);
    return gasnet_puts_nb_bulk((gasnet_node_t)call->node, call->dst, shape->dst_stride, call->src, shape->src_stride,
                               shape->count, shape->levels);
}

int comex_puts(void *src, int *src_stride, void *dst, int *dst_stride, int *count, int stride_levels, int proc,
               comex_group_t group) {
    const struct strided call = { .shape = comexg_shape(src_stride, dst_stride, count, stride_levels),
                                  .src = src,
                                  .dst = dst,
                                  .node = comexg_node(proc, group) };
    if (!call.shape.levels) {
        comexg_put(call.node, dst, src, call.shape.count[0]);
        return COMEX_SUCCESS;
    }
    comexg_enter();
    gasnet_wait_syncnb(begin_put(&call));
    comexg_leave();
    return COMEX_SUCCESS;
}

int comex_nbputs(void *src, int *src_stride, void *dst, int *dst_stride, int *count, int stride_levels, int proc,
                 comex_group_t group, comex_request_t *request) {
    const struct strided call = { .shape = comexg_shape(src_stride, dst_stride, count, stride_levels),
                                  .src = src,
                                  .dst = dst,
                                  .node = comexg_node(proc, group) };
    comexg_enter();
    const comex_request_t number = comexg_request(begin_put(&call));
    comexg_leave();
    if (request)
        *request = number;
    return COMEX_SUCCESS;
}

/* ---- Gets. */

/* Nobody waits for one that `stays` open as the call returns. */
static gasnet_handle_t begin_get(const struct strided *call, bool stays) {
    const struct comexg_shape *shape = &call->shape;
    if (is_done_here(call))
        return GASNET_INVALID_HANDLE;
    const struct comexg_range range = comexg_extent(shape, shape->src_stride, call->src);
    comexg_before_read(call->node, range);
    if (stays)
        comexg_get_begins(call->node, range);
    return gasnet_gets_nb_bulk(call->dst, shape->dst_stride, (gasnet_node_t)call->node, call->src, shape->src_stride,
                               shape->count, shape->levels);
}

int comex_gets(void *src, int *src_stride, void *dst, int *dst_stride, int *count, int stride_levels, int proc,
               comex_group_t group) {
    const struct strided call = { .shape = comexg_shape(src_stride, dst_stride, count, stride_levels),
                                  .src = src,
                                  .dst = dst,
                                  .node = comexg_node(proc, group) };
    comexg_enter();
    gasnet_wait_syncnb(begin_get(&call, false));
    comexg_leave();
    return COMEX_SUCCESS;
}

int comex_nbgets(void *src, int *src_stride, void *dst, int *dst_stride, int *count, int stride_levels, int proc,
                 comex_group_t group, comex_request_t *request) {
    const struct strided call = { .shape = comexg_shape(src_stride, dst_stride, count, stride_levels),
                                  .src = src,
                                  .dst = dst,
                                  .node = comexg_node(proc, group) };
    comexg_enter();
    const comex_request_t number = comexg_request(begin_get(&call, true));
    comexg_leave();
    if (request)
        *request = number;
    return COMEX_SUCCESS;
}
