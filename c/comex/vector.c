/* Puts and gets of places that are listed. */
#include <string.h>

#include "groups.h"
#include "order.h"
#include "requests.h"
#include "shape.h"
#include "watch.h"

static struct comexg_range extent(void *const places[], const comex_giov_t *list) {
    struct comexg_range all = { 0, 0 };
    for (int i = 0; i < list->count; i++)
        all = comexg_hull(all, comexg_range(places[i], (size_t)list->bytes));
    return all;
}

/* Begins a list's transfer, in an access region. */
typedef void of_list(int node, const comex_giov_t *list);

static void put_list(int node, const comex_giov_t *list) {
    const size_t count = (size_t)list->count, bytes = (size_t)list->bytes;
    comexg_put_begins(node, extent(list->dst, list));
    gasnet_puti_nbi_bulk((gasnet_node_t)node, count, list->dst, bytes, count, list->src, bytes);
}

static void get_list(int node, const comex_giov_t *list) {
    const size_t count = (size_t)list->count, bytes = (size_t)list->bytes;
    comexg_get_begins(node, extent(list->src, list));
    gasnet_geti_nbi_bulk(count, list->dst, bytes, (gasnet_node_t)node, count, list->src, bytes);
}

static void copy_list(int node, const comex_giov_t *list) {
    (void)node;
    for (int i = 0; i < list->count; i++)
        memmove(list->dst[i], list->src[i], (size_t)list->bytes);
}

/* Begins the lists of a call, and answers a handle for all of them. All that is under way to the node is waited for
 * before, since nothing can be waited for in an access region. */
static gasnet_handle_t begin(of_list *does, const comex_giov_t *lists, int len, int node) {
    comexg_check_lists(lists, len);
    if (node == comexg_state.me)
        does = copy_list;
    comexg_fence(node);
    if (does == put_list)
        comexg_finish_gets(node);
    gasnet_begin_nbi_accessregion();
    for (int i = 0; i < len; i++)
        if (lists[i].count > 0 && lists[i].bytes > 0)
            does(node, &lists[i]);
    return gasnet_end_nbi_accessregion();
}

static int transfer(of_list *does, const comex_giov_t *lists, int len, int node) {
    comexg_enter();
    gasnet_wait_syncnb(begin(does, lists, len, node));
    comexg_leave();
    return COMEX_SUCCESS;
}

static int begin_transfer(of_list *does, const comex_giov_t *lists, int len, int node, comex_request_t *request) {
    comexg_enter();
    const comex_request_t number = comexg_request(begin(does, lists, len, node));
    comexg_leave();
    if (request)
        *request = number;
    return COMEX_SUCCESS;
}

/* ---- Calls. */

int comex_putv(comex_giov_t *darr, int len, int proc, comex_group_t group) {
    return transfer(put_list, darr, len, comexg_node(proc, group));
}

int comex_getv(comex_giov_t *darr, int len, int proc, comex_group_t group) {
    return transfer(get_list, darr, len, comexg_node(proc, group));
}

int comex_nbputv(comex_giov_t *darr, int len, int proc, comex_group_t group, comex_request_t *request) {
    return begin_transfer(put_list, darr, len, comexg_node(proc, group), request);
}

int comex_nbgetv(comex_giov_t *darr, int len, int proc, comex_group_t group, comex_request_t *request) {
    return begin_transfer(get_list, darr, len, comexg_node(proc, group), request);
}
