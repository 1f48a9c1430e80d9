#include "barrier.h"

#include <sched.h>

#include "order.h"
#include "watch.h"

/* All processes meet by GASNet's barrier, which sleeps where it waits for long. */
static void meet_all(void) {
    gasnet_barrier_notify(0, GASNET_BARRIERFLAG_ANONYMOUS);
    GASNET_SAFE(gasnet_barrier_wait(0, GASNET_BARRIERFLAG_ANONYMOUS));
}

/* The members of another group meet by MPI's, and poll while they wait. */
static void meet(MPI_Comm comm) {
    MPI_Request request;
    int is_over = 0;
    MPI_Ibarrier(comm, &request);
    MPI_Test(&request, &is_over, MPI_STATUS_IGNORE);
    while (!is_over) {
        gasnet_AMPoll();
        sched_yield();
        MPI_Test(&request, &is_over, MPI_STATUS_IGNORE);
    }
}

void comexg_barrier(comex_group_t group) {
    const struct comexg_group *of = comexg_group(group);
    if (of->comm == MPI_COMM_NULL)
        comexg_die("the process isn't a member of group %d", group);
    comexg_enter();
    if (of->size == comexg_state.size)
        meet_all();
    else
        meet(of->comm);
    comexg_leave();
}

/* ---- Calls. */

int comex_barrier(comex_group_t group) {
    comex_fence_all(group);
    comexg_barrier(group);
    return COMEX_SUCCESS;
}

int comex_fence_proc(int proc, comex_group_t group) {
    comexg_enter();
    comexg_fence(comexg_node(proc, group));
    comexg_leave();
    return COMEX_SUCCESS;
}

/* Operations to processes outside of the group are completed too. */
int comex_fence_all(comex_group_t group) {
    (void)group;
    comexg_enter();
    comexg_fence_all();
    comexg_leave();
    return COMEX_SUCCESS;
}

/* Not of comex.h: ga's ARMCI calls it where it waits for a message of MPI, as of ComEx's own port over MPI. */
void comex_make_progress(void);
void comex_make_progress(void) {
    comexg_enter();
    gasnet_AMPoll();
    comexg_leave();
}
