#include "groups.h"

#include <stdlib.h>

static struct comexg_group **groups; /* by number; NULL where it is free */
static int count;

/* ---- The table. */

static int free_number(void) {
    for (int i = 0; i < count; i++)
        if (!groups[i])
            return i;
    groups = realloc(groups, ((size_t)count + 1) * sizeof *groups);
    if (!groups)
        comexg_die("there is no memory for another group");
    groups[count] = NULL;
    return count++;
}

static struct comexg_group *new_group(comex_group_t *number) {
    *number = free_number();
    struct comexg_group *group = groups[*number] = calloc(1, sizeof *group);
    if (!group)
        comexg_die("there is no memory for another group");
    return group;
}

const struct comexg_group *comexg_group(comex_group_t group) {
    if (group < 0 || group >= count || !groups[group])
        comexg_die("there is no group %d", group);
    return groups[group];
}

int comexg_node(int proc, comex_group_t group) {
    const struct comexg_group *of = comexg_group(group);
    if (proc < 0 || proc >= of->size)
        comexg_die("process %d isn't in group %d, which has %d", proc, group, of->size);
    return of->members[proc];
}

void comexg_groups_start(void) {
    comex_group_t number;
    struct comexg_group *all = new_group(&number);
    all->comm = comexg_state.world;
    all->rank = comexg_state.me;
    all->size = comexg_state.size;
    for (int i = 0; i < all->size; i++)
        all->members[i] = i;
}

static void free_group(int number) {
    if (number != COMEX_GROUP_WORLD && groups[number]->comm != MPI_COMM_NULL)
        MPI_Comm_free(&groups[number]->comm);
    free(groups[number]);
    groups[number] = NULL;
}

void comexg_groups_end(void) {
    for (int i = 0; i < count; i++)
        if (groups[i])
            free_group(i);
    free(groups);
    groups = NULL;
    count = 0;
}

/* ---- Calls. */

/* The communicator of a group's members, which all of them make. */
static MPI_Comm make_comm(const struct comexg_group *group) {
    MPI_Group all, members;
    MPI_Comm comm;
    MPI_Comm_group(comexg_state.world, &all);
    MPI_Group_incl(all, group->size, group->members, &members);
    if (MPI_Comm_create_group(comexg_state.world, members, 0, &comm) != MPI_SUCCESS)
        comexg_die("MPI can't make the communicator of a group");
    MPI_Group_free(&members);
    MPI_Group_free(&all);
    return comm;
}

int comex_group_create(int n, int *pid_list, comex_group_t group, comex_group_t *new) {
    const struct comexg_group *of = comexg_group(group);
    for (int i = 0; i < n; i++)
        if (pid_list[i] < 0 || pid_list[i] >= of->size)
            return COMEX_FAILURE;
    if (n < 1 || n > of->size)
        return COMEX_FAILURE;
    struct comexg_group *made = new_group(new);
    made->comm = MPI_COMM_NULL;
    made->rank = MPI_UNDEFINED;
    made->size = n;
    for (int i = 0; i < n; i++) {
        made->members[i] = of->members[pid_list[i]];
        if (made->members[i] == comexg_state.me)
            made->rank = i;
    }
    if (made->rank != MPI_UNDEFINED)
        made->comm = make_comm(made);
    return COMEX_SUCCESS;
}

int comex_group_free(comex_group_t group) {
    if (comexg_group(group) && group == COMEX_GROUP_WORLD)
        return COMEX_FAILURE;
    free_group(group);
    return COMEX_SUCCESS;
}

int comex_group_rank(comex_group_t group, int *rank) {
    *rank = comexg_group(group)->rank;
    return COMEX_SUCCESS;
}

int comex_group_size(comex_group_t group, int *size) {
    *size = comexg_group(group)->size;
    return COMEX_SUCCESS;
}

int comex_group_comm(comex_group_t group, MPI_Comm *comm) {
    *comm = comexg_group(group)->comm;
    return COMEX_SUCCESS;
}

static int rank_of(const struct comexg_group *group, int node) {
    for (int i = 0; i < group->size; i++)
        if (group->members[i] == node)
            return i;
    return MPI_UNDEFINED;
}

int comex_group_translate_ranks(int n, comex_group_t group_from, int *ranks_from, comex_group_t group_to,
                                int *ranks_to) {
    const struct comexg_group *to = comexg_group(group_to);
    for (int i = 0; i < n; i++)
        ranks_to[i] = rank_of(to, comexg_node(ranks_from[i], group_from));
    return COMEX_SUCCESS;
}

int comex_group_translate_world(comex_group_t group, int group_rank, int *world_rank) {
    *world_rank = comexg_node(group_rank, group);
    return COMEX_SUCCESS;
}
