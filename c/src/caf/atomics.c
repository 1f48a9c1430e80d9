/* Atomic subroutines. An image of 0 is this one. */
#include <string.h>

#include "errors.h"
#include "far.h"
#include "state.h"
#include "step.h"
#include "token.h"

/* Where a call works; false where it ends here, and its stat is set. */
static bool find(struct caf_step *step, int *node, struct caf_token *token, size_t offset, int image, int kind,
                 int *stat) {
    const struct caf_report report = { stat, NULL, 0 };
    *node = image ? caf_node(image) : caf_state.me;
    uintptr_t at = caf_token_at(token, *node, offset, &report);
    if (kind != 1 && kind != 2 && kind != 4 && kind != 8)
        caf_die("an atomic variable is of kind %d", kind);
    if (!at)
        return false;
    caf_settle_all();
    *step = (struct caf_step){ .at = at, .size = (uint32_t)kind };
    caf_report_success(&report);
    return true;
}

static uint64_t bits_of(const void *value, int kind) {
    uint64_t bits = 0;
    memcpy(&bits, value, (size_t)kind);
    return bits;
}

void _gfortran_caf_atomic_define(struct caf_token *token, size_t offset, int image, void *value, int *stat, int type,
                                 int kind) {
    struct caf_step step;
    int node;
    (void)type;
    if (!find(&step, &node, token, offset, image, kind, stat))
        return;
    step.operation = CAF_SET;
    step.value = bits_of(value, kind);
    caf_step_do(node, &step);
}

void _gfortran_caf_atomic_ref(struct caf_token *token, size_t offset, int image, void *value, int *stat, int type,
                              int kind) {
    struct caf_step step;
    int node;
    (void)type;
    if (!find(&step, &node, token, offset, image, kind, stat))
        return;
    step.operation = CAF_READ;
    const uint64_t old = caf_step_do(node, &step);
    memcpy(value, &old, (size_t)kind);
}

void _gfortran_caf_atomic_cas(struct caf_token *token, size_t offset, int image, void *old, void *compare,
                              void *new_value, int *stat, int type, int kind) {
    struct caf_step step;
    int node;
    (void)type;
    if (!find(&step, &node, token, offset, image, kind, stat))
        return;
    step.operation = CAF_SWAP;
    step.value = bits_of(new_value, kind);
    step.compare = bits_of(compare, kind);
    const uint64_t stood = caf_step_do(node, &step);
    memcpy(old, &stood, (size_t)kind);
}

static enum caf_operation operation_of(int operation) {
    switch (operation) {
    case CAF_ATOMIC_ADD:
        return CAF_ADD;
    case CAF_ATOMIC_AND:
        return CAF_AND;
    case CAF_ATOMIC_OR:
        return CAF_OR;
    case CAF_ATOMIC_XOR:
        return CAF_XOR;
    default:
        caf_die("the atomic operation %d isn't known", operation);
    }
}

void _gfortran_caf_atomic_op(int operation, struct caf_token *token, size_t offset, int image, void *value, void *old,
                             int *stat, int type, int kind) {
    struct caf_step step;
    int node;
    (void)type;
    if (!find(&step, &node, token, offset, image, kind, stat))
        return;
    step.operation = operation_of(operation);
    step.value = bits_of(value, kind);
    const uint64_t stood = caf_step_do(node, &step);
    if (old)
        memcpy(old, &stood, (size_t)kind);
}
