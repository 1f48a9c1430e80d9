/* The accumulates of comex.h. Each has read its source as it returns, the non-blocking ones too. */
#include "accumulate.h"
#include "groups.h"
#include "requests.h"
#include "shape.h"
#include "watch.h"

enum { PLANE = 2048 }; /* a plane of fewer bytes goes with others */

/* An accumulate of a shape. */
struct adding {
    struct comexg_scaled scaled;
    int node;
    struct comexg_gather gather;
    bool gathers;
};

static struct comexg_rows rows_of(const struct comexg_shape *shape, char *src, char *dst) {
    struct comexg_rows rows = { src, dst, shape->count[0], 1, shape->count[0], shape->count[0] };
    if (shape->levels) {
        rows.count = shape->count[1];
        rows.src_stride = shape->src_stride[0];
        rows.dst_stride = shape->dst_stride[0];
    }
    return rows;
}

/* ---- What is done with a plane. */

static void add_plane_here(void *context, const struct comexg_shape *shape, char *src, char *dst) {
    const struct adding *adding = context;
    const struct comexg_rows rows = rows_of(shape, src, dst);
    for (size_t i = 0; i < rows.count; i++)
        comexg_add(&adding->scaled, dst + i * rows.dst_stride, src + i * rows.src_stride, rows.bytes);
}

static void send_plane(void *context, const struct comexg_shape *shape, char *src, char *dst) {
    const struct adding *adding = context;
    const struct comexg_rows rows = rows_of(shape, src, dst);
    comexg_send_rows(&adding->scaled, adding->node, &rows);
}

static void gather_plane(void *context, const struct comexg_shape *shape, char *src, char *dst) {
    struct adding *adding = context;
    const struct comexg_rows rows = rows_of(shape, src, dst);
    for (size_t i = 0; i < rows.count; i++)
        comexg_gather_row(&adding->gather, src + i * rows.src_stride, dst + i * rows.dst_stride);
}

/* ---- A shape. */

static void add_here(struct adding *adding, const struct comexg_shape *shape, void *src, void *dst) {
    gasnet_hsl_lock(&comexg_state.lock);
    comexg_each_plane(shape, src, dst, add_plane_here, adding);
    gasnet_hsl_unlock(&comexg_state.lock);
}

static bool is_gathered(const struct comexg_shape *shape) {
    return shape->levels > 1 && shape->count[0] <= comexg_gather_most() && shape->count[0] * shape->count[1] < PLANE;
}

static void add_there(struct adding *adding, const struct comexg_shape *shape, void *src, void *dst) {
    comexg_enter();
    comexg_before_add(adding->node, comexg_extent(shape, shape->dst_stride, dst));
    adding->gather = (struct comexg_gather){ .scaled = &adding->scaled, .node = adding->node, .row = shape->count[0] };
    comexg_each_plane(shape, src, dst, is_gathered(shape) ? gather_plane : send_plane, adding);
    comexg_gather_end(&adding->gather);
    comexg_leave();
}

static int add_shape(struct adding *adding, const struct comexg_shape *shape, void *src, void *dst) {
    if (comexg_is_empty(shape))
        return COMEX_SUCCESS;
    (adding->node == comexg_state.me ? add_here : add_there)(adding, shape, src, dst);
    return COMEX_SUCCESS;
}

int comex_accs(int op, void *scale, void *src, int *src_stride, void *dst, int *dst_stride, int *count,
               int stride_levels, int proc, comex_group_t group) {
    struct adding adding = { .scaled = comexg_scaled(op, scale), .node = comexg_node(proc, group) };
    const struct comexg_shape shape = comexg_shape(src_stride, dst_stride, count, stride_levels);
    return add_shape(&adding, &shape, src, dst);
}

int comex_acc(int op, void *scale, void *src, void *dst, int bytes, int proc, comex_group_t group) {
    return comex_accs(op, scale, src, NULL, dst, NULL, &bytes, 0, proc, group);
}

/* ---- Lists of places. */

static void add_list_here(const struct comexg_scaled *scaled, const comex_giov_t *list) {
    gasnet_hsl_lock(&comexg_state.lock);
    for (int i = 0; i < list->count; i++)
        comexg_add(scaled, list->dst[i], list->src[i], (size_t)list->bytes);
    gasnet_hsl_unlock(&comexg_state.lock);
}

/* Sends the rows of a list that are too long to be gathered. */
static void send_list(const struct comexg_scaled *scaled, int node, const comex_giov_t *list) {
    const size_t bytes = (size_t)list->bytes;
    for (int i = 0; i < list->count; i++)
        comexg_send_rows(scaled, node, &(struct comexg_rows){ list->src[i], list->dst[i], bytes, 1, bytes, bytes });
}

static void gather_list(const struct comexg_scaled *scaled, int node, const comex_giov_t *list) {
    struct comexg_gather gather = { .scaled = scaled, .node = node, .row = (size_t)list->bytes };
    for (int i = 0; i < list->count; i++)
        comexg_gather_row(&gather, list->src[i], list->dst[i]);
    comexg_gather_end(&gather);
}

static void add_list(const struct comexg_scaled *scaled, int node, const comex_giov_t *list) {
    if (list->count <= 0 || list->bytes <= 0)
        return;
    if (node == comexg_state.me)
        add_list_here(scaled, list);
    else
        ((size_t)list->bytes > comexg_gather_most() ? send_list : gather_list)(scaled, node, list);
}

int comex_accv(int op, void *scale, comex_giov_t *darr, int len, int proc, comex_group_t group) {
    const struct comexg_scaled scaled = comexg_scaled(op, scale);
    const int node = comexg_node(proc, group);
    comexg_check_lists(darr, len);
    comexg_enter();
    comexg_fence_puts(node);
    comexg_finish_gets(node);
    for (int i = 0; i < len; i++)
        add_list(&scaled, node, &darr[i]);
    comexg_leave();
    return COMEX_SUCCESS;
}

/* ---- The non-blocking ones are done as they return, but for what a fence waits for. */

static int done(int code, comex_request_t *request) {
    if (request)
        *request = comexg_request(GASNET_INVALID_HANDLE);
    return code;
}

int comex_nbacc(int op, void *scale, void *src, void *dst, int bytes, int proc, comex_group_t group,
                comex_request_t *request) {
    return done(comex_acc(op, scale, src, dst, bytes, proc, group), request);
}

int comex_nbaccs(int op, void *scale, void *src, int *src_stride, void *dst, int *dst_stride, int *count,
                 int stride_levels, int proc, comex_group_t group, comex_request_t *request) {
    return done(comex_accs(op, scale, src, src_stride, dst, dst_stride, count, stride_levels, proc, group), request);
}

int comex_nbaccv(int op, void *scale, comex_giov_t *darr, int len, int proc, comex_group_t group,
                 comex_request_t *request) {
    return done(comex_accv(op, scale, darr, len, proc, group), request);
}
