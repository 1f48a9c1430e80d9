/* Long accumulates. Numbers go by puts to a room of the target that is this process's, some at a time, and a Short has
 * them added. Puts carry more than Mediums do, and the target adds some while others are on their way. */
#ifndef COMEXG_STAGE_H
#define COMEXG_STAGE_H

#include "accumulate.h"

enum { COMEXG_ROOM = 65536 };

/* Makes the rooms for the others, and tells all where they are. All processes call it, once. */
void comexg_stage_start(void);

/* Whether a node has rooms: not where its segment is too small. */
bool comexg_stage_is_at(int node);

/* Begins to add rows, of at most COMEXG_ROOM bytes, which may be read until comexg_stage_end. */
void comexg_stage_rows(const struct comexg_scaled *scaled, int node, const struct comexg_rows *rows);

/* Tells the targets of all that was begun, whose puts are complete as it returns. A fence waits for the rest. */
void comexg_stage_end(void);

#endif
