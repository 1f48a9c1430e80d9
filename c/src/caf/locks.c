/* Locks, critical sections and events. Each is a cell of 8 bytes of its coarray. A lock's cell holds the image that has
 * it, from 1, or 0. An event's cell counts the posts that weren't waited for. */
#include <time.h>

#include "errors.h"
#include "far.h"
#include "state.h"
#include "step.h"
#include "token.h"

enum { CELL = 8, LEAST_PAUSE = 1000, MOST_PAUSE = 256000 }; /* nanoseconds between two tries for a lock */

/* The step on a cell; false where the call ends here, and its error is reported. */
static bool find(struct caf_step *step, int *node, const struct caf_token *token, size_t index, int image,
                 const struct caf_report *report) {
    *node = image ? caf_node(image) : caf_state.me;
    uintptr_t at = caf_token_at(token, *node, index * CELL, report);
    *step = (struct caf_step){ .at = at, .size = CELL };
    return at != 0;
}

static int64_t now(void) {
    struct timespec time;
    clock_gettime(CLOCK_MONOTONIC, &time);
    return (int64_t)time.tv_sec * 1000000000 + time.tv_nsec;
}

/* Serves the others for a while, which is longer each time. */
static void pause_for(int64_t *time) {
    int64_t until = now() + *time;
    do
        gasnet_AMPoll();
    while (now() < until);
    if (*time < MOST_PAUSE)
        *time *= 2;
}

/* How a try for a lock ends. */
enum outcome { TAKEN, TAKEN_OVER, IS_OWN, IS_HELD, IS_LOST };

/* Takes a lock from an image that failed. */
static bool takes_over(int node, const struct caf_step *step, uint64_t holder) {
    struct caf_step other = *step;
    other.compare = holder;
    return caf_state.peers[holder - 1].condition == CAF_FAILED && caf_step_do(node, &other) == holder;
}

/* Tries once for a lock. One that an image still has after it stopped is lost. */
static enum outcome try(int node, const struct caf_step *step) {
    uint64_t holder = caf_step_do(node, step);
    if (!holder)
        return TAKEN;
    if (holder == step->value)
        return IS_OWN;
    if (takes_over(node, step, holder))
        return TAKEN_OVER;
    if (caf_state.peers[holder - 1].condition != CAF_STOPPED)
        return IS_HELD;
    uint64_t now = caf_step_do(node, step); /* it may have unlocked between the two looks */
    return !now ? TAKEN : now == holder ? IS_LOST : IS_HELD;
}

static enum outcome take(int node, const struct caf_step *step, bool once) {
    int64_t pause = LEAST_PAUSE;
    for (;;) {
        enum outcome outcome = try(node, step);
        if (outcome != IS_HELD || once)
            return outcome;
        pause_for(&pause);
    }
}

static void report_outcome(const struct caf_report *report, enum outcome outcome, bool may_fail) {
    if (outcome == IS_OWN)
        caf_report_error(report, CAF_STAT_LOCKED, "lock: this image has it already");
    else if (outcome == IS_LOST && !may_fail)
        caf_report_error(report, CAF_STAT_STOPPED_IMAGE, "lock: an image has stopped that has it");
    else if (outcome == TAKEN_OVER && report->stat)
        caf_report_error(report, CAF_STAT_UNLOCKED_FAILED_IMAGE, "lock: an image failed that had it");
    else
        caf_report_success(report);
}

void _gfortran_caf_lock(struct caf_token *token, size_t index, int image, int *acquired, CAF_ERRORS) {
    const struct caf_report report = { stat, errmsg, errmsg_len };
    struct caf_step step;
    int node;
    caf_settle_all();
    if (!find(&step, &node, token, index, image, &report))
        return;
    step.operation = CAF_SWAP;
    step.value = (uint64_t)caf_state.me + 1;
    enum outcome outcome = take(node, &step, acquired != NULL);
    if (acquired && outcome != IS_OWN)
        *acquired = outcome == TAKEN || outcome == TAKEN_OVER;
    report_outcome(&report, outcome, acquired != NULL);
}

void _gfortran_caf_unlock(struct caf_token *token, size_t index, int image, CAF_ERRORS) {
    const struct caf_report report = { stat, errmsg, errmsg_len };
    struct caf_step step;
    int node;
    caf_settle_all();
    if (!find(&step, &node, token, index, image, &report))
        return;
    step.operation = CAF_SWAP;
    step.compare = (uint64_t)caf_state.me + 1;
    uint64_t holder = caf_step_do(node, &step);
    if (holder == step.compare)
        caf_report_success(&report);
    else if (holder)
        caf_report_error(&report, CAF_STAT_LOCKED_OTHER_IMAGE, "unlock: image %d has the lock", (int)holder);
    else
        caf_report_error(&report, CAF_STAT_UNLOCKED, "unlock: no image has the lock");
}

/* ---- Events. */

void _gfortran_caf_event_post(struct caf_token *token, size_t index, int image, CAF_ERRORS) {
    const struct caf_report report = { stat, errmsg, errmsg_len };
    struct caf_step step;
    int node;
    caf_settle_all();
    if (!find(&step, &node, token, index, image, &report))
        return;
    step.operation = CAF_ADD;
    step.value = 1;
    caf_step_do(node, &step);
    caf_report_success(&report);
}

static bool has_posts(struct caf_step *step, int64_t wanted) {
    step->operation = CAF_READ;
    return (int64_t)caf_step_do(caf_state.me, step) >= wanted;
}

void _gfortran_caf_event_wait(struct caf_token *token, size_t index, int until, CAF_ERRORS) {
    const struct caf_report report = { stat, errmsg, errmsg_len };
    const int64_t wanted = until > 1 ? until : 1;
    struct caf_step step;
    int node;
    caf_settle_all();
    if (!find(&step, &node, token, index, 0, &report))
        return;
    GASNET_BLOCKUNTIL(has_posts(&step, wanted) || (caf_state.gone && caf_state.gone == caf_state.images - 1));
    if (has_posts(&step, wanted)) {
        step.operation = CAF_ADD;
        step.value = -(uint64_t)wanted;
        caf_step_do(caf_state.me, &step);
        caf_report_success(&report);
    } else
        caf_report_error(&report, CAF_STAT_STOPPED_IMAGE, "event wait: no image is left that can post");
}

void _gfortran_caf_event_query(struct caf_token *token, size_t index, int image, int *count, int *stat) {
    const struct caf_report report = { stat, NULL, 0 };
    struct caf_step step;
    int node;
    if (!find(&step, &node, token, index, image, &report))
        return;
    step.operation = CAF_READ;
    *count = (int)caf_step_do(node, &step);
    caf_report_success(&report);
}
