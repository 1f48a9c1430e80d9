#include "all_images.h"

#include <stdlib.h>

#include "errors.h"
#include "state.h"

/* Among more images pairs take fewer messages, and of longer parts they send fewer bytes. */
enum { MOST_IMAGES = 3, MOST_BYTES = 1024 };

static bool is_of_all(const struct caf_team *team, size_t length) { return !team->parent && team->size > 1 && length; }

bool caf_all_images_reduces(const struct caf_team *team, size_t length) {
    bool is_short = team->size <= MOST_IMAGES && length <= MOST_BYTES;
    return is_of_all(team, length) && (is_short || caf_state.is_proved);
}

bool caf_all_images_broadcasts(const struct caf_team *team, size_t length) {
    return is_of_all(team, length) && caf_state.is_proved;
}

/* ---- Waiting for a collective of the endpoint. */

static bool has_ended(gex_Event_t *event) {
    if (*event != GEX_EVENT_INVALID && gex_Event_Test(*event) == GASNET_OK)
        *event = GEX_EVENT_INVALID;
    return *event == GEX_EVENT_INVALID;
}

/* Whether it ended. Where an image never begins it, it doesn't: what it was given isn't written then, and no later
 * collective is the endpoint's, as each finds that image absent. */
static bool ends(struct caf_operation *operation, gex_Event_t event) {
    GASNET_BLOCKUNTIL(has_ended(&event) || caf_team_absence(operation->team, operation->sequence) ||
                      caf_operation_is_odd(operation));
    caf_operation_check(operation);
    operation->code = event == GEX_EVENT_INVALID ? 0 : caf_team_absence(operation->team, operation->sequence);
    return !operation->code;
}

/* ---- Integers of 64 bits are the endpoint's words: it combines them itself. */

static bool has_words(const struct caf_combiner *combiner) {
    return combiner->type.type == CAF_INTEGER && combiner->type.size == sizeof(int64_t) &&
           combiner->reduction != CAF_REDUCE;
}

static void reduce_words(struct caf_operation *operation, enum caf_reduction reduction, void *words, size_t count) {
    gex_OP_t op = reduction == CAF_SUM ? GEX_OP_ADD : reduction == CAF_MINIMUM ? GEX_OP_MIN : GEX_OP_MAX;
    ends(operation, gex_Coll_ReduceToAllNB(NULL, words, words, GEX_DT_I64, sizeof(int64_t), count, op, NULL, NULL, 0));
}

/* ---- Of other types each image gets the parts of all, and combines them in one order. */

static void combine_all(const struct caf_combiner *combiner, char *result, const char *parts, size_t count) {
    size_t length = count * combiner->type.size;
    caf_combine(combiner, result, parts, parts + length, count);
    for (int image = 2; image < caf_state.images; image++)
        caf_combine(combiner, result, result, parts + (size_t)image * length, count);
}

static void reduce_parts(struct caf_operation *operation, const struct caf_combiner *combiner, void *part,
                         size_t count) {
    size_t length = count * combiner->type.size;
    char *parts = caf_memory((size_t)caf_state.images * length);
    if (ends(operation, gasnet_coll_gather_all_nb(NULL, parts, part, length, 0)))
        combine_all(combiner, part, parts, count);
    free(parts);
}

void caf_all_images_reduce(struct caf_operation *operation, const struct caf_combiner *combiner, void *part,
                           size_t count) {
    if (has_words(combiner))
        reduce_words(operation, combiner->reduction, part, count);
    else
        reduce_parts(operation, combiner, part, count);
}

void caf_all_images_broadcast(struct caf_operation *operation, int source, void *bytes, size_t length) {
    ends(operation, gex_Coll_BroadcastNB(NULL, (gex_Rank_t)source, bytes, bytes, length, 0));
}
