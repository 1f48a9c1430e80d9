/* Registration: coarrays lie in the segment, at addresses that all images of the team tell one another. Components are
 * memory of malloc, since gfortran frees some of them by free. */
#include "token.h"

#include <stdlib.h>
#include <string.h>

#include "errors.h"
#include "far.h"
#include "state.h"
#include "synchronise.h"

enum { CELL = 8, NOWHERE = 1 }; /* the bytes of a lock or an event; an address that stands for none */

uintptr_t caf_token_at(const struct caf_token *token, int node, size_t offset, const struct caf_report *report) {
    bool has_failed = caf_state.peers[node].condition == CAF_FAILED && node != caf_state.me;
    if (has_failed && !(token && token->is_critical)) {
        caf_report_error(report, CAF_STAT_FAILED_IMAGE, "a coarray of a failed image is referred to");
        return 0;
    }
    if (!token || token->is_component || !token->bases[node])
        caf_die("a coarray is referred to that image %d of the job doesn't have", node + 1);
    return token->bases[node] + offset;
}

/* ---- The tokens that live. */

static struct caf_token *enter(struct caf_token *token) {
    token->next = caf_state.tokens;
    token->link = &caf_state.tokens;
    if (token->next)
        token->next->link = &token->next;
    caf_state.tokens = token;
    return token;
}

static void forget_bounds(struct caf_token *token) {
    struct caf_token **at = &caf_state.unsettled;
    while (*at && *at != token)
        at = &(*at)->unsettled;
    if (*at)
        *at = token->unsettled;
}

static void release(struct caf_token *token) {
    if (token->is_unsettled)
        forget_bounds(token);
    *token->link = token->next;
    if (token->next)
        token->next->link = token->link;
    free(token);
}

/* gfortran copies tokens with the objects that they lie in, so a component's token may be anything. */
static bool lives(const struct caf_token *token) {
    for (const struct caf_token *other = caf_state.tokens; other; other = other->next)
        if (other == token)
            return true;
    return false;
}

/* ---- Bounds: gfortran writes them behind the registration, and synchronises after that. */

void caf_tokens_settle(void) {
    while (caf_state.unsettled) {
        struct caf_token *token = caf_state.unsettled;
        const struct caf_descriptor *array = token->array;
        caf_state.unsettled = token->unsettled;
        token->is_unsettled = false;
        if (array->base != token->memory)
            continue;
        token->rank = array->dtype.rank;
        token->span = array->span;
        memcpy(token->dim, array->dim, (size_t)token->rank * sizeof *token->dim);
    }
}

const struct caf_bounds *caf_token_bounds(struct caf_token *token, int rank, ptrdiff_t *span) {
    caf_tokens_settle();
    if (token->rank != rank)
        caf_die("the bounds of a coarray that is referred to aren't known");
    *span = token->span;
    return token->dim;
}

/* ---- Components. */

struct caf_token *caf_token_component(void *memory, size_t bytes) {
    struct caf_token *token = enter(caf_zeros(sizeof *token));
    token->is_component = true;
    token->memory = memory;
    token->bytes = bytes;
    return token;
}

void caf_token_forget(struct caf_token *token, const void *memory) {
    if (token && lives(token) && token->is_component && token->memory == memory)
        release(token);
}

static void allocate_component(size_t size, struct caf_token **token, struct caf_descriptor *array,
                               const struct caf_report *report) {
    void *memory = malloc(size ? size : 1);
    if (!memory) {
        caf_report_error(report, CAF_STAT_ALLOCATION, "allocate: there is no memory of %zu bytes", size);
        return;
    }
    *token = caf_token_component(memory, size);
    array->base = memory;
    caf_report_success(report);
}

/* Whether a token's place is the one behind this descriptor. */
static bool has_slot(const struct caf_descriptor *array, struct caf_token *const *slot) {
    uintptr_t at = (uintptr_t)slot, begin = (uintptr_t)array;
    return at >= begin && at - begin < sizeof *array + sizeof(struct caf_bounds);
}

/* gfortran 12 registers a polymorphic component as if it were a coarray, under the token of the coarray that it belongs
 * to, and frees it by free. The array that it hands over isn't the one that the token is part of. */
static bool is_part(struct caf_token *const *slot, const struct caf_descriptor *array) {
    return *slot && lives(*slot) && !(*slot)->is_component && !has_slot(array, slot);
}

static void allocate_part(size_t size, struct caf_token *token, struct caf_descriptor *array,
                          const struct caf_report *report) {
    void *memory = malloc(size ? size : 1);
    if (!memory) {
        caf_report_error(report, CAF_STAT_ALLOCATION, "allocate: there is no memory of %zu bytes", size);
        return;
    }
    token->parts[token->part++ % CAF_PARTS] = memory;
    array->base = memory;
    caf_report_success(report);
}

bool caf_token_has_part(const struct caf_token *token, int node, uintptr_t at) {
    uintptr_t place = at - token->bases[node];
    const void *part;
    if (place >= token->bytes || token->bytes - place < sizeof part)
        return false;
    memcpy(&part, (const char *)token->memory + place, sizeof part);
    for (unsigned i = 0; part && i < CAF_PARTS; i++)
        if (token->parts[i] == part)
            return true;
    return false;
}

static bool holds(const void *memory, size_t bytes, const void *at) {
    return (uintptr_t)at >= (uintptr_t)memory && (uintptr_t)at - (uintptr_t)memory < bytes;
}

/* Whether something lies in a coarray, or in a component of one. gfortran registers a component that it copies as if it
 * were a coarray; its token lies in the object that it belongs to. */
static bool is_in_object(const void *at) {
    const gasnet_seginfo_t *segment = &caf_state.segments[caf_state.me];
    if (holds(segment->addr, segment->size, at))
        return true;
    for (const struct caf_token *token = caf_state.tokens; token; token = token->next)
        if (token->is_component && holds(token->memory, token->bytes, at))
            return true;
    return false;
}

/* ---- Coarrays. */

static bool is_cells(int type) { return type >= CAF_LOCK_STATIC && type <= CAF_EVENT_ALLOCATABLE; }

/* What the members of a team tell one another of a coarray. */
struct shares {
    struct caf_pair of[GASNET_MAXNODES]; /* where each one's memory is, and how many bytes it asked for; 0: it failed */
    bool has_all;                        /* each has memory */
    int code;                            /* as caf_meet answers */
};

/* Tells the team where this image's memory is, and how long. */
static void exchange_shares(struct caf_token *token, void *memory, size_t bytes, struct shares *shares) {
    const struct caf_team *team = caf_state.team;
    const struct caf_pair mine = { memory ? caf_address(memory) : NOWHERE, bytes };
    shares->code = caf_meet_by_pairs(caf_state.team, mine, shares->of);
    shares->has_all = true;
    for (int i = 0; i < team->size; i++) {
        bool has_memory = shares->of[i].first != NOWHERE;
        token->bases[team->members[i]] = has_memory ? (uintptr_t)shares->of[i].first : 0;
        shares->has_all = shares->has_all && has_memory;
    }
}

/* A member that asked for another length than this one did; -1 where there is none. */
static int find_other_length(const struct shares *shares, size_t bytes) {
    for (int i = 0; i < caf_state.team->size; i++)
        if (shares->of[i].first && shares->of[i].second != bytes)
            return i;
    return -1;
}

static void give_up(struct caf_token *token, void *memory) {
    if (memory)
        caf_heap_give(&caf_state.heap, memory);
    release(token);
}

static void note_unsettled(struct caf_token *token) {
    token->is_unsettled = true;
    token->unsettled = caf_state.unsettled;
    caf_state.unsettled = token;
}

/* Whether all members have this coarray, of one length; otherwise the error is reported. */
static bool is_shared(const struct shares *shares, size_t bytes, const struct caf_report *report) {
    int other = find_other_length(shares, bytes);
    if (other >= 0)
        caf_report_error(report, 1,
                         "allocate: image %d asks for %zu bytes, and image %d for %zu: a coarray has the "
                         "same bounds on all images",
                         caf_state.team->index + 1, bytes, other + 1, (size_t)shares->of[other].second);
    else if (!shares->has_all)
        caf_report_error(report, CAF_STAT_ALLOCATION,
                         "allocate: an image has no memory of %zu bytes; "
                         "GASNET_MAX_SEGSIZE sets how much it has",
                         bytes);
    else if (shares->code == CAF_STAT_STOPPED_IMAGE)
        caf_report_code(report, shares->code, "allocate");
    return other < 0 && shares->has_all && shares->code != CAF_STAT_STOPPED_IMAGE;
}

static void allocate_coarray(size_t bytes, int type, struct caf_token **slot, struct caf_descriptor *array,
                             const struct caf_report *report) {
    struct caf_token *token = enter(caf_zeros(sizeof *token));
    void *memory = caf_heap_take(&caf_state.heap, bytes);
    struct shares shares;
    caf_state.is_allocating = report->stat != NULL;
    if (memory && is_cells(type)) /* static coarrays come first, and a segment begins as zeros */
        memset(memory, 0, bytes);
    exchange_shares(token, memory, bytes, &shares);
    if (!is_shared(&shares, bytes, report)) {
        give_up(token, memory);
        return;
    }
    token->memory = memory;
    token->bytes = bytes;
    token->array = array;
    token->rank = -1;
    token->is_critical = type == CAF_CRITICAL;
    if (type == CAF_ALLOCATABLE)
        note_unsettled(token);
    *slot = token;
    array->base = memory;
    /* gfortran 12 sets no bounds where stat= isn't 0 */
    caf_report_code(report, report->stat ? 0 : shares.code, "allocate");
}

/* Where an array of objects is allocated that have pointers, gfortran 12 takes its descriptor for the first object:
 * then the token's place lies in no object, and is left alone. */
void _gfortran_caf_register(size_t size, int type, struct caf_token **token, struct caf_descriptor *array, CAF_ERRORS) {
    const struct caf_report report = { stat, errmsg, errmsg_len };
    caf_start();
    if (type == CAF_COMPONENT_NAMED) {
        if (size != 1 || is_in_object(token))
            *token = NULL;
        caf_report_success(&report);
    } else if (type == CAF_COMPONENT || (type == CAF_ALLOCATABLE && is_in_object(token)))
        allocate_component(size, token, array, &report);
    else if (type == CAF_ALLOCATABLE && is_part(token, array))
        allocate_part(size, *token, array, &report);
    else
        allocate_coarray(is_cells(type) ? size * CELL : size, type, token, array, &report);
}

/* ---- Deregistration. */

/* Waits for the others, and frees a coarray. Where stat= isn't 0 behind that, gfortran 12 takes the array for one that
 * is allocated still. */
static int deallocate_coarray(struct caf_token **slot) {
    struct caf_token *token = *slot;
    int code = caf_sync_team(caf_state.team);
    if (code && has_slot(token->array, slot) && token->array->base == token->memory)
        token->array->base = NULL;
    caf_heap_give(&caf_state.heap, token->memory);
    return code;
}

void _gfortran_caf_deregister(struct caf_token **slot, int type, CAF_ERRORS) {
    const struct caf_report report = { stat, errmsg, errmsg_len };
    struct caf_token *token = *slot;
    int code = 0;
    (void)type;
    if (token && lives(token)) {
        if (token->is_component)
            free(token->memory);
        else
            code = deallocate_coarray(slot);
        release(token);
    }
    *slot = NULL;
    caf_report_code(&report, code, "deallocate");
}
