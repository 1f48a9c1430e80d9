/* Barriers of a group. */
#ifndef COMEXG_BARRIER_H
#define COMEXG_BARRIER_H

#include "groups.h"

/* Waits until all members of the group called it. It serves the others meanwhile, and waits for no transfer. */
void comexg_barrier(comex_group_t group);

#endif
