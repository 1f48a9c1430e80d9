/* Assignments between a section of an image and an array here. */
#ifndef CAF_TRANSFER_H
#define CAF_TRANSFER_H

#include "convert.h"
#include "section.h"

/* The elements of a section of a node. */
struct caf_far {
    int node;
    struct caf_section section;
    struct caf_type type;
};

/* Assigns a far section to an array here, of as many elements. The section's tables are freed. */
void caf_assign_here(struct caf_far *source, const struct caf_descriptor *target, int target_kind);

/* Assigns an array here to a far section: of as many elements, or one that goes to all. The section's tables are freed.
 */
void caf_assign_there(struct caf_far *target, const struct caf_descriptor *source, int source_kind);

/* Assigns a far section to another one, of as many elements. Both sections' tables are freed. */
void caf_assign_between(struct caf_far *target, struct caf_far *source);

#endif
