/* Memory: all of it is of the local segment, which costs what is touched. */
#include <string.h>

#include "barrier.h"

/* A block of no bytes is null, here and at the others. */
void *comex_malloc_local(size_t bytes) { return bytes ? caf_heap_take(&comexg_state.heap, bytes) : NULL; }

int comex_free_local(void *ptr) {
    if (ptr)
        caf_heap_give(&comexg_state.heap, ptr);
    return COMEX_SUCCESS;
}

/* Whether some member has no memory, as all are told. */
static int any_lacks(MPI_Comm comm, int lacks) {
    int any = 0;
    MPI_Allreduce(&lacks, &any, 1, MPI_INT, MPI_MAX, comm);
    return any;
}

int comex_malloc(void **ptr_arr, size_t bytes, comex_group_t group) {
    const struct comexg_group *of = comexg_group(group);
    void *mine = comex_malloc_local(bytes);
    if (any_lacks(of->comm, bytes && !mine)) {
        comex_free_local(mine);
        return COMEX_FAILURE;
    }
    MPI_Allgather(&mine, sizeof mine, MPI_BYTE, ptr_arr, sizeof mine, MPI_BYTE, of->comm);
    return COMEX_SUCCESS;
}

/* No member gives its block back before all are done with all of them. */
int comex_free(void *ptr, comex_group_t group) {
    comex_barrier(group);
    return comex_free_local(ptr);
}

/* There is one kind of memory. */
int comex_malloc_mem_dev(void **ptr_arr, size_t bytes, comex_group_t group, const char *device) {
    (void)device;
    return comex_malloc(ptr_arr, bytes, group);
}

int comex_free_dev(void *ptr, comex_group_t group) { return comex_free(ptr, group); }
