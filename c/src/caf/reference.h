/* References that go through components which are allocated apart: the descriptors and pointers on the way are read
 * from the image that has them. */
#ifndef CAF_REFERENCE_H
#define CAF_REFERENCE_H

#include <stdbool.h>
#include <stdint.h>

#include "abi.h"
#include "token.h"
#include "transfer.h"

/* Where a reference ended that goes through something that isn't allocated. */
struct caf_missing {
    uintptr_t slot;       /* the descriptor or the pointer, at its node */
    uintptr_t token_slot; /* the component's token */
    const struct caf_reference *component;
};

/* Finds the section that a reference names at a node, and its elements' size. False where a component on the way isn't
 * allocated; then `missing` says which. */
bool caf_refer(struct caf_far *far, struct caf_token *token, const struct caf_reference *reference,
               struct caf_missing *missing);

/* Allocates the component that is missing at its node, in the shape of the array; or allocates it anew. */
void caf_make(int node, const struct caf_missing *missing, const struct caf_descriptor *shape, size_t item);

/* The component that a reference ends with, where it names all of it: then the component could be allocated anew. */
bool caf_names_whole(const struct caf_reference *component);

#endif
