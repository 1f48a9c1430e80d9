/* Tokens: what this image knows of a coarray, or of a component that it allocated. */
#ifndef CAF_TOKEN_H
#define CAF_TOKEN_H

#include <stdbool.h>

#include "abi.h"
#include "errors.h"
#include "gasnet.h"

enum { CAF_PARTS = 16 };

struct caf_token {
    struct caf_token *next, **link; /* among all that live */
    struct caf_token *unsettled;    /* the next one whose bounds aren't known */
    bool is_component, is_unsettled;
    bool is_critical; /* a critical construct's, which goes on where its image failed */
    void *memory;     /* this image's own */
    size_t bytes;
    uintptr_t bases[GASNET_MAXNODES]; /* of a coarray: its memory at each node, 0 where the node has none */
    struct caf_descriptor *array;     /* the array that was registered */
    int rank;                         /* of what follows; -1 where the bounds aren't known */
    ptrdiff_t span;
    struct caf_bounds dim[CAF_RANKS];
    const void *parts[CAF_PARTS]; /* the latest polymorphic components that were allocated under the coarray's token */
    unsigned part;                /* how many there were */
};

/* The address at a node of a coarray's byte. Where the node has failed, the error is reported and the answer is 0.
 * Where it has no such coarray, all images end. */
uintptr_t caf_token_at(const struct caf_token *token, int node, size_t offset, const struct caf_report *report);

/* A token of a component: memory of malloc, which the token frees. */
struct caf_token *caf_token_component(void *memory, size_t bytes);

/* Frees the token of a component, if it is that of this memory, and not the memory. */
void caf_token_forget(struct caf_token *token, const void *memory);

/* Whether a polymorphic component lies at an address of a node: there is one at the same place of this image's object.
 */
bool caf_token_has_part(const struct caf_token *token, int node, uintptr_t at);

/* Notes the bounds of the arrays that were registered before. */
void caf_tokens_settle(void);

/* The bounds of a coarray, the same on all images; where they aren't known all images end. */
const struct caf_bounds *caf_token_bounds(struct caf_token *token, int rank, ptrdiff_t *span);

#endif
