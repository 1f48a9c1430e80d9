/* Who is missing in gasnet_attach, and what came from each: so that a user sees why a job doesn't begin. */
#ifndef GASNETL_ABSENT_H
#define GASNETL_ABSENT_H

#include <stdbool.h>
#include <stdint.h>

#include "control.h"

struct gasnetl_job;

/* Something of this kind came from a peer. What says more of it counts. */
void gasnetl_absent_came(struct gasnetl_control *control, uint16_t from, enum gasnetl_came came);

/* Says in one line for how many microseconds this node has waited, for which nodes, and what came from each. True. */
bool gasnetl_absent_tell(struct gasnetl_job *job, const bool *known, uint64_t time);

/* Says the same, and ends the job. */
_Noreturn void gasnetl_absent_end(struct gasnetl_job *job, const bool *known, uint64_t time);

#endif
