#include "requests.h"

#include <limits.h>

#include "watch.h"

enum { REQUESTS = 256 };

static gasnet_handle_t handles[REQUESTS];
static comex_request_t numbers[REQUESTS];
static comex_request_t next;
static bool any_open;

comex_request_t comexg_request(gasnet_handle_t handle) {
    const comex_request_t number = next;
    const int slot = number % REQUESTS;
    gasnet_wait_syncnb(handles[slot]);
    handles[slot] = handle;
    numbers[slot] = number;
    next = number == INT_MAX ? 0 : number + 1;
    any_open |= handle != GASNET_INVALID_HANDLE;
    return number;
}

void comexg_requests_wait(void) {
    if (any_open)
        gasnet_wait_syncnb_all(handles, REQUESTS);
    any_open = false;
}

/* The handle of a request; NULL where it is complete, or there is none. */
static gasnet_handle_t *handle_of(const comex_request_t *request) {
    if (!request || *request < 0)
        return NULL;
    const int slot = *request % REQUESTS;
    return numbers[slot] == *request && handles[slot] != GASNET_INVALID_HANDLE ? &handles[slot] : NULL;
}

int comex_wait(comex_request_t *request) {
    gasnet_handle_t *handle = handle_of(request);
    if (!handle)
        return COMEX_SUCCESS;
    comexg_enter();
    gasnet_wait_syncnb(*handle);
    comexg_leave();
    *handle = GASNET_INVALID_HANDLE;
    return COMEX_SUCCESS;
}

int comex_test(comex_request_t *request, int *status) {
    gasnet_handle_t *handle = handle_of(request);
    *status = 0;
    if (!handle)
        return COMEX_SUCCESS;
    comexg_enter();
    *status = gasnet_try_syncnb(*handle) != GASNET_OK;
    comexg_leave();
    if (!*status)
        *handle = GASNET_INVALID_HANDLE;
    return COMEX_SUCCESS;
}

/* All of this process's transfers are waited for, whatever the group. */
int comex_wait_all(comex_group_t group) {
    (void)group;
    comexg_enter();
    gasnet_wait_syncnbi_all();
    comexg_requests_wait();
    comexg_leave();
    return COMEX_SUCCESS;
}

int comex_wait_proc(int proc, comex_group_t group) {
    (void)proc;
    return comex_wait_all(group);
}
