/* Atomic steps: those of one image never overlap. */
#ifndef CAF_STEP_H
#define CAF_STEP_H

#include <stddef.h>
#include <stdint.h>

enum caf_operation { CAF_SET, CAF_ADD, CAF_AND, CAF_OR, CAF_XOR, CAF_READ, CAF_SWAP };

/* One step on `size` bytes (1, 2, 4 or 8) of a coarray of a node. */
struct caf_step {
    uint64_t at;
    uint64_t value;
    uint64_t compare; /* of CAF_SWAP: the value is set where this one stood */
    uint32_t operation, size;
};

/* Makes ready for steps, where GASNet is attached. */
void caf_steps_start(void);

/* Does the step, and answers what stood there before. */
uint64_t caf_step_do(int node, const struct caf_step *step);

#endif
