#include "step.h"

#include <string.h>

#include "state.h"

/* ---- Steps on words of 64 bits in a segment are GASNet's remote atomics: nothing else touches these words. */

static gex_AD_t words;

enum { WORD = 8 };

static const gex_OP_t operations[] = {
    [CAF_SET] = GEX_OP_SWAP, [CAF_ADD] = GEX_OP_FADD, [CAF_AND] = GEX_OP_FAND,  [CAF_OR] = GEX_OP_FOR,
    [CAF_XOR] = GEX_OP_FXOR, [CAF_READ] = GEX_OP_GET, [CAF_SWAP] = GEX_OP_FCAS,
};

void caf_steps_start(void) {
    gex_OP_t all = 0;
    for (size_t i = 0; i < sizeof operations / sizeof *operations; i++)
        all |= operations[i];
    gex_AD_Create(&words, NULL, GEX_DT_U64, all, 0);
}

static uint64_t do_word(int node, const struct caf_step *step) {
    const bool is_swap = step->operation == CAF_SWAP;
    uint64_t old;
    gex_Event_Wait(gex_AD_OpNB_U64(words, &old, (gex_Rank_t)node, (void *)(uintptr_t)step->at,
                                   operations[step->operation], is_swap ? step->compare : step->value, step->value, 0));
    return old;
}

/* ---- Others are done by a handler. */

struct request {
    struct caf_step step;
    uint64_t answer; /* where the answer goes, at the node that asks */
};

struct answer {
    volatile bool has_come;
    volatile uint64_t old;
};

static uint64_t result_of(const struct caf_step *step, uint64_t old) {
    switch (step->operation) {
    case CAF_SET:
        return step->value;
    case CAF_ADD:
        return old + step->value;
    case CAF_AND:
        return old & step->value;
    case CAF_OR:
        return old | step->value;
    case CAF_XOR:
        return old ^ step->value;
    case CAF_SWAP:
        return old == step->compare ? step->value : old;
    default:
        return old;
    }
}

void caf_step_handler(gasnet_token_t from, void *bytes, size_t length) {
    const struct request *request = bytes;
    const struct caf_step *step = &request->step;
    void *at = (void *)(uintptr_t)step->at;
    uint64_t old = 0;
    (void)length;
    memcpy(&old, at, step->size);
    const uint64_t now = result_of(step, old);
    memcpy(at, &now, step->size);
    gasnet_AMReplyShort4(from, CAF_STEP_DONE, caf_low(request->answer), caf_high(request->answer), caf_low(old),
                         caf_high(old));
}

void caf_step_done_handler(gasnet_token_t from, int32_t low, int32_t high, int32_t old_low, int32_t old_high) {
    struct answer *answer = (struct answer *)(uintptr_t)caf_join(low, high);
    (void)from;
    answer->old = caf_join(old_low, old_high);
    answer->has_come = true;
}

static uint64_t do_by_handler(int node, const struct caf_step *step) {
    struct answer answer = { false, 0 };
    const struct request request = { *step, caf_address(&answer) };
    gasnet_AMRequestMedium0((gasnet_node_t)node, CAF_STEP, &request, sizeof request);
    GASNET_BLOCKUNTIL(answer.has_come);
    return answer.old;
}

uint64_t caf_step_do(int node, const struct caf_step *step) {
    return (step->size == WORD ? do_word : do_by_handler)(node, step);
}
