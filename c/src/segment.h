/* The segments: where each node's lies, and what of the local one is the client's. */
#ifndef GASNETL_SEGMENT_H
#define GASNETL_SEGMENT_H

#include <stdbool.h>
#include <stddef.h>
#include <stdint.h>

#include "gasnet.h"

struct gasnetl_job;

struct gasnetl_segment {
    uint8_t *base;         /* the local one: the client's part, and from `stage` on the layer's */
    uintptr_t size;        /* of the client's part */
    uintptr_t asked, most; /* the greatest client's part: as it is asked of the system, and as that gives it */
    uint64_t stage;        /* the same offset on all nodes: behind the greatest client's part */
    uint8_t **bases;       /* of each node */
    uintptr_t *sizes;
};

/* How many bytes of a segment of so many the system gives: all, or a half, or a half of that, and so on, down to a
 * mebibyte. As many addresses stay for what else the process has. */
uintptr_t gasnetl_segment_given(uintptr_t bytes);

/* Has fresh pages of zeros for the local segment, which cost nothing before they are used. They stay until the process
 * ends, since a thread may use them until then. False where the system has none. */
bool gasnetl_segment_open(struct gasnetl_segment *segment, uint64_t length);

/* Gives these pages back, where gasnet_attach fails behind that. */
void gasnetl_segment_close(struct gasnetl_segment *segment, uint64_t length);

/* Where these bytes lie in a node's segment, whose client's part has all of them. False where it hasn't. */
bool gasnetl_far(const struct gasnetl_job *job, gasnet_node_t node, const void *at, size_t nbytes, uint64_t *offset);

/* Whether some of these bytes lie in the local segment, but not all in its client's part. The library takes no pointer
 * there. */
bool gasnetl_straddles(const struct gasnetl_job *job, const void *at, size_t nbytes);

#endif
