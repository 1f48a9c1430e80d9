/* The calls that synchronise transfers. */
#include "errors.h"
#include "job.h"

enum { POLL_MOST = 64 };

/* ---- Of handles. */

/* Gives a complete operation back. */
static int sync_one(struct gasnetl_job *job, gasnet_handle_t handle) {
    if (!handle)
        return GASNET_OK;
    if (!gasnetl_handle_is_complete(handle))
        return GASNET_ERR_NOT_READY;
    gasnetl_op_free(&job->transfers.ops, handle);
    return GASNET_OK;
}

static int sync_all(struct gasnetl_job *job, gasnet_handle_t *handles, size_t count) {
    for (size_t i = 0; i < count; i++)
        if (handles[i] && !gasnetl_handle_is_complete(handles[i]))
            return GASNET_ERR_NOT_READY;
    for (size_t i = 0; i < count; i++) {
        sync_one(job, handles[i]);
        handles[i] = GASNET_INVALID_HANDLE;
    }
    return GASNET_OK;
}

static int sync_some(struct gasnetl_job *job, gasnet_handle_t *handles, size_t count) {
    size_t given = 0, complete = 0;
    for (size_t i = 0; i < count; i++) {
        if (!handles[i])
            continue;
        given++;
        if (sync_one(job, handles[i]) == GASNET_OK) {
            complete++;
            handles[i] = GASNET_INVALID_HANDLE;
        }
    }
    return complete || !given ? GASNET_OK : GASNET_ERR_NOT_READY;
}

int gasnet_try_syncnb(gasnet_handle_t handle) {
    struct gasnetl_job *job = gasnetl_enter("gasnet_try_syncnb");
    if (handle && !gasnetl_handle_is_complete(handle))
        gasnetl_poll(job, POLL_MOST);
    int code = sync_one(job, handle);
    gasnetl_leave(job);
    return code;
}

void gasnet_wait_syncnb(gasnet_handle_t handle) {
    struct gasnetl_job *job = gasnetl_enter("gasnet_wait_syncnb");
    unsigned turn = 0;
    while (sync_one(job, handle) != GASNET_OK)
        gasnetl_wait(job, &turn);
    gasnetl_leave(job);
}

/* Tries the handles by this way, after a poll where they weren't ready. */
typedef int syncs(struct gasnetl_job *job, gasnet_handle_t *handles, size_t count);

static int try_handles(const char *call, syncs *sync, gasnet_handle_t *handles, size_t count) {
    struct gasnetl_job *job = gasnetl_enter(call);
    int code = sync(job, handles, count);
    if (code != GASNET_OK) {
        gasnetl_poll(job, POLL_MOST);
        code = sync(job, handles, count);
    }
    gasnetl_leave(job);
    return code;
}

int gasnet_try_syncnb_all(gasnet_handle_t *handles, size_t numhandles) {
    return try_handles("gasnet_try_syncnb_all", sync_all, handles, numhandles);
}
void gasnet_wait_syncnb_all(gasnet_handle_t *handles, size_t numhandles) {
    struct gasnetl_job *job = gasnetl_enter("gasnet_wait_syncnb_all");
    unsigned turn = 0;
    for (size_t i = 0; i < numhandles; i++) {
        while (sync_one(job, handles[i]) != GASNET_OK)
            gasnetl_wait(job, &turn);
        handles[i] = GASNET_INVALID_HANDLE;
    }
    gasnetl_leave(job);
}
int gasnet_try_syncnb_some(gasnet_handle_t *handles, size_t numhandles) {
    return try_handles("gasnet_try_syncnb_some", sync_some, handles, numhandles);
}
void gasnet_wait_syncnb_some(gasnet_handle_t *handles, size_t numhandles) {
    struct gasnetl_job *job = gasnetl_enter("gasnet_wait_syncnb_some");
    unsigned turn = 0;
    while (sync_some(job, handles, numhandles) != GASNET_OK)
        gasnetl_wait(job, &turn);
    gasnetl_leave(job);
}

/* ---- Of the thread's implicit operations. */

static bool is_under_way(const struct gasnetl_op *op) { return op && !gasnetl_op_is_complete(op); }

/* Whether one of its puts, where these are asked for, or its gets isn't complete. */
static bool are_under_way(bool puts, bool gets) {
    return (puts && is_under_way(gasnetl_thread.puts)) || (gets && is_under_way(gasnetl_thread.gets));
}

static struct gasnetl_job *enter_implicit(const char *call) {
    struct gasnetl_job *job = gasnetl_enter(call);
    if (gasnetl_thread.region)
        gasnetl_stop(GASNETL_MISUSE, "%s is called inside an access region", call);
    return job;
}

static int try_implicit(const char *call, bool puts, bool gets) {
    struct gasnetl_job *job = enter_implicit(call);
    if (are_under_way(puts, gets))
        gasnetl_poll(job, POLL_MOST);
    int code = are_under_way(puts, gets) ? GASNET_ERR_NOT_READY : GASNET_OK;
    gasnetl_leave(job);
    return code;
}

static void wait_implicit(const char *call, bool puts, bool gets) {
    struct gasnetl_job *job = enter_implicit(call);
    unsigned turn = 0;
    while (are_under_way(puts, gets))
        gasnetl_wait(job, &turn);
    gasnetl_leave(job);
}

int gasnet_try_syncnbi_gets(void) { return try_implicit("gasnet_try_syncnbi_gets", false, true); }
int gasnet_try_syncnbi_puts(void) { return try_implicit("gasnet_try_syncnbi_puts", true, false); }
int gasnet_try_syncnbi_all(void) { return try_implicit("gasnet_try_syncnbi_all", true, true); }
void gasnet_wait_syncnbi_gets(void) { wait_implicit("gasnet_wait_syncnbi_gets", false, true); }
void gasnet_wait_syncnbi_puts(void) { wait_implicit("gasnet_wait_syncnbi_puts", true, false); }
void gasnet_wait_syncnbi_all(void) { wait_implicit("gasnet_wait_syncnbi_all", true, true); }
