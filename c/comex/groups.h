/* Groups of processes. A group's number is the local process's own. */
#ifndef COMEXG_GROUPS_H
#define COMEXG_GROUPS_H

#include "state.h"

struct comexg_group {
    MPI_Comm comm; /* MPI_COMM_NULL where the process isn't a member */
    int rank;      /* of the process; MPI_UNDEFINED where it isn't a member */
    int size;
    int members[GASNET_MAXNODES]; /* their nodes, by rank */
};

/* Makes the group of all processes; and frees all groups. */
void comexg_groups_start(void);
void comexg_groups_end(void);

/* The group of this number; where there is none all processes end. */
const struct comexg_group *comexg_group(comex_group_t group);

/* The node of a process of a group; where there is none all processes end. */
int comexg_node(int proc, comex_group_t group);

#endif
