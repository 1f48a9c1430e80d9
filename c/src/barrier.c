/* The split-phase barrier: the endpoint's. */
#include "errors.h"
#include "job.h"

enum { POLL_MOST = 64, FLAGS = GASNET_BARRIERFLAG_ANONYMOUS | GASNET_BARRIERFLAG_MISMATCH };

static void judge(const char *call, int flags) {
    if (flags & ~FLAGS)
        gasnetl_stop(GASNETL_MISUSE, "%s: the flags %d aren't known", call, flags);
}

void gasnet_barrier_notify(int id, int flags) {
    struct gasnetl_job *job = gasnetl_enter("gasnet_barrier_notify");
    judge("gasnet_barrier_notify", flags);
    gasnetl_poll(job, POLL_MOST);
    gasnet_c_told told = gasnet_c_notify(&job->node, job->progress.time, id, (uint8_t)flags);
    if (told.code != GASNET_C_OK)
        gasnetl_stop(GASNETL_MISUSE, "gasnet_barrier_notify: the node notified already, and didn't wait since");
    job->progress.has_notifications = job->nodes > 1;
    if (job->progress.has_notifications)
        gasnetl_tick(job);
    gasnetl_leave(job);
}

static int try(struct gasnetl_job *job, const char *call, int id, int flags) {
    switch (gasnet_c_try(&job->node, job->progress.time, id, (uint8_t)flags).code) {
    case GASNET_C_OK:
        return GASNET_OK;
    case GASNET_C_NOT_READY:
        return GASNET_ERR_NOT_READY;
    case GASNET_C_MISMATCH:
        return GASNET_ERR_BARRIER_MISMATCH;
    case GASNET_C_EXHAUSTED:
        gasnetl_stop(GASNETL_BROKEN, "%s: the barrier's numbers are used up", call);
    default:
        gasnetl_stop(GASNETL_MISUSE, "%s: the node didn't notify", call);
    }
}

int gasnet_barrier_try(int id, int flags) {
    struct gasnetl_job *job = gasnetl_enter("gasnet_barrier_try");
    judge("gasnet_barrier_try", flags);
    gasnetl_poll(job, POLL_MOST);
    int code = try(job, "gasnet_barrier_try", id, flags);
    gasnetl_leave(job);
    return code;
}

int gasnet_barrier_wait(int id, int flags) {
    struct gasnetl_job *job = gasnetl_enter("gasnet_barrier_wait");
    unsigned turn = 0;
    int code;
    judge("gasnet_barrier_wait", flags);
    while ((code = try(job, "gasnet_barrier_wait", id, flags)) == GASNET_ERR_NOT_READY)
        gasnetl_wait(job, &turn);
    gasnetl_leave(job);
    return code;
}
