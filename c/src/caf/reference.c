#include "reference.h"

#include <stdlib.h>
#include <string.h>

#include "errors.h"
#include "far.h"
#include "state.h"

/* ---- Subscripts. */

static int rank_of(const struct caf_reference *array) {
    int rank = 0;
    while (rank < CAF_RANKS && array->u.array.mode[rank] != CAF_MODE_NONE)
        rank++;
    return rank;
}

/* Adds the places from one index to another one. The bounds of the dimension and the bytes of an index are known. */
static void add_range(struct caf_section *section, ptrdiff_t first, ptrdiff_t last, ptrdiff_t by, ptrdiff_t lower,
                      ptrdiff_t step) {
    bool is_empty = !by || (by > 0 ? last < first : last > first);
    section->base += (uintptr_t)((first - lower) * step);
    caf_section_add(section, is_empty ? 0 : (size_t)((last - first) / by + 1), by * step, NULL);
}

static void add_vector(struct caf_section *section, const void *vector, size_t count, int kind, ptrdiff_t lower,
                       ptrdiff_t step) {
    ptrdiff_t *places = caf_memory(count * sizeof *places);
    for (size_t i = 0; i < count; i++)
        places[i] = (caf_index(vector, kind, i) - lower) * step;
    caf_section_add(section, count, 0, places);
}

/* Applies the subscripts of an array that has a descriptor. What a triplet leaves out is the lower bound, and the upper
 * one, whatever its stride is. */
static void subscript(struct caf_section *section, const struct caf_reference *array, const struct caf_bounds *dim,
                      ptrdiff_t span) {
    for (int k = 0; k < rank_of(array); k++) {
        ptrdiff_t lower = dim[k].lower, upper = dim[k].upper, step = dim[k].stride * span;
        ptrdiff_t start = array->u.array.dim[k].s.start, end = array->u.array.dim[k].s.end,
                  by = array->u.array.dim[k].s.stride;
        switch (array->u.array.mode[k]) {
        case CAF_MODE_VECTOR:
            add_vector(section, array->u.array.dim[k].v.vector, array->u.array.dim[k].v.nvec,
                       array->u.array.dim[k].v.kind, lower, step);
            break;
        case CAF_MODE_FULL:
            add_range(section, lower, upper, by, lower, step);
            break;
        case CAF_MODE_RANGE:
            add_range(section, start, end, by, lower, step);
            break;
        case CAF_MODE_SINGLE:
            section->base += (uintptr_t)((start - lower) * step);
            break;
        case CAF_MODE_OPEN_END:
            add_range(section, start, upper, by, lower, step);
            break;
        case CAF_MODE_OPEN_START:
            add_range(section, lower, end, by, lower, step);
            break;
        default:
            caf_die("a subscript of mode %d isn't known", array->u.array.mode[k]);
        }
    }
}

/* Applies those of an array of constant bounds: they count elements, from 0, as they lie. */
static void subscript_static(struct caf_section *section, const struct caf_reference *array) {
    ptrdiff_t item = (ptrdiff_t)array->item_size;
    for (int k = 0; k < rank_of(array); k++) {
        ptrdiff_t start = array->u.array.dim[k].s.start, end = array->u.array.dim[k].s.end,
                  by = array->u.array.dim[k].s.stride;
        switch (array->u.array.mode[k]) {
        case CAF_MODE_VECTOR:
            add_vector(section, array->u.array.dim[k].v.vector, array->u.array.dim[k].v.nvec,
                       array->u.array.dim[k].v.kind, 0, item);
            break;
        case CAF_MODE_FULL:
        case CAF_MODE_RANGE:
            add_range(section, start, end, by, 0, item);
            break;
        case CAF_MODE_SINGLE:
            section->base += (uintptr_t)(start * item);
            break;
        default:
            caf_die("a subscript of mode %d isn't known for an array of constant bounds", array->u.array.mode[k]);
        }
    }
}

/* ---- Bounds: a reference stays within the coarray, or within the component that it went to last. */

struct region {
    uintptr_t low, high;
};

/* Where the elements of an array lie that has a descriptor. */
static struct region region_of(const struct caf_descriptor *array, int rank, ptrdiff_t span, size_t item) {
    struct caf_section all = caf_section_bytes((uintptr_t)array->base, item);
    struct region region;
    for (int k = 0; k < rank; k++) {
        const struct caf_bounds *dim = &array->dim[k];
        caf_section_add(&all, dim->upper < dim->lower ? 0 : (size_t)(dim->upper - dim->lower + 1), dim->stride * span,
                        NULL);
    }
    caf_section_hull(&all, &region.low, &region.high);
    return region;
}

static _Noreturn void outside(void) {
    caf_die("elements outside of a coarray, or of a component of one, are referred to: a subscript is wrong");
}

/* Of a substring gfortran hands on the length of the whole text, so texts may reach too far. */
static void check_within(const struct caf_far *far, const struct region *region) {
    uintptr_t low, high;
    if (!caf_section_length(&far->section))
        return;
    caf_section_hull(&far->section, &low, &high);
    if (low < region->low || low >= region->high || (far->type.type != CAF_CHARACTER && high > region->high))
        outside();
}

/* ---- Components. */

static void read_far(int node, uintptr_t at, void *bytes, size_t length) {
    const struct caf_section section = caf_section_bytes(at, length);
    caf_fetch(node, &section, bytes);
}

static size_t descriptor_size(int rank) {
    return offsetof(struct caf_descriptor, dim) + (size_t)rank * sizeof(struct caf_bounds);
}

/* Goes to what a component's descriptor or pointer leads to. Answers the last reference that was used, or null where
 * nothing is allocated. */
static const struct caf_reference *follow(struct caf_far *far, const struct caf_reference *component,
                                          struct region *region) {
    const struct caf_reference *next = component->next;
    struct caf_descriptor array = { .base = NULL };
    bool is_array = next && next->type == CAF_REFERS_ARRAY;
    if (caf_section_count(&far->section) != 1)
        caf_die("a component that is allocated apart is referred to in an array section");
    read_far(far->node, far->section.base, &array, is_array ? descriptor_size(rank_of(next)) : sizeof array.base);
    if (!array.base)
        return NULL;
    far->section.base = (uintptr_t)array.base;
    *region = (struct region){ far->section.base, far->section.base + component->item_size };
    if (!is_array)
        return component;
    ptrdiff_t span = array.span > 0 ? array.span : (ptrdiff_t)next->item_size;
    *region = region_of(&array, rank_of(next), span, next->item_size);
    subscript(&far->section, next, array.dim, span);
    return next;
}

/* gfortran 12 leaves out the token of a scalar pointer to the type that it is a component of. What it leads to is
 * longer than what the object has behind the pointer's place. */
static bool leads_away(const struct caf_far *far, const struct caf_reference *component) {
    const struct caf_reference *next = component->next;
    size_t offset = (size_t)component->u.component.offset;
    return next && next->type == CAF_REFERS_COMPONENT && offset + component->item_size > far->section.run;
}

static const struct caf_reference *go_to_component(struct caf_far *far, const struct caf_token *token,
                                                   const struct caf_reference *component, struct caf_missing *missing,
                                                   struct region *region) {
    const uintptr_t object = far->section.base;
    const ptrdiff_t token_offset = component->u.component.token_offset;
    const bool is_recursive = !token_offset && leads_away(far, component);
    far->section.base += (uintptr_t)component->u.component.offset;
    if (!token_offset && !is_recursive && !caf_token_has_part(token, far->node, far->section.base))
        return component;
    if (far->section.base < region->low || far->section.base >= region->high)
        outside();
    *missing = (struct caf_missing){ far->section.base, object + (uintptr_t)token_offset, component };
    const struct caf_reference *last = follow(far, component, region);
    if (!token_offset && !is_recursive) /* of a polymorphic one the bytes aren't known */
        region->high = UINTPTR_MAX;
    return last;
}

bool caf_refer(struct caf_far *far, struct caf_token *token, const struct caf_reference *reference,
               struct caf_missing *missing) {
    struct region region = { far->section.base, far->section.base + token->bytes };
    ptrdiff_t span;
    missing->component = NULL;
    while (reference) {
        switch (reference->type) {
        case CAF_REFERS_COMPONENT:
            reference = go_to_component(far, token, reference, missing, &region);
            break;
        case CAF_REFERS_ARRAY: { /* only of the coarray itself: those of components are behind their component */
            const struct caf_bounds *dim = caf_token_bounds(token, rank_of(reference), &span);
            subscript(&far->section, reference, dim, span > 0 ? span : (ptrdiff_t)reference->item_size);
            break;
        }
        default:
            subscript_static(&far->section, reference);
        }
        if (!reference)
            return false;
        far->section.run = reference->item_size;
        reference = reference->next;
    }
    far->type.size = far->section.run;
    if (!far->type.size && far->type.type == CAF_CHARACTER && missing->component)
        caf_die(
            "a component is referred to that is a text of deferred length: gfortran 12 doesn't hand on how long it is");
    check_within(far, &region);
    return true;
}

bool caf_names_whole(const struct caf_reference *component) {
    const struct caf_reference *array = component ? component->next : NULL;
    if (!component || (array && (array->type != CAF_REFERS_ARRAY || array->next)))
        return false;
    for (int k = 0; array && k < rank_of(array); k++)
        if (array->u.array.mode[k] != CAF_MODE_FULL)
            return false;
    return true;
}

/* ---- The allocation of a component of another image, which its handler does. */

struct making {
    uint64_t slot, token_slot, answer;
    uint64_t item;
    uint32_t rank, type; /* rank 0: the slot is a pointer, where is_array isn't set */
    uint32_t is_array, filling;
    uint64_t extent[CAF_RANKS];
};

struct made {
    volatile bool has_come;
};

static void write_bounds(struct caf_descriptor *array, const struct making *making, void *memory) {
    ptrdiff_t stride = 1;
    array->base = memory;
    array->offset = 0;
    array->dtype.elem_len = (size_t)making->item;
    array->dtype.rank = (int8_t)making->rank;
    array->dtype.type = (int8_t)making->type;
    array->span = (ptrdiff_t)making->item;
    for (uint32_t k = 0; k < making->rank; k++) {
        array->dim[k] = (struct caf_bounds){ stride, 1, (ptrdiff_t)making->extent[k] };
        array->offset -= (size_t)stride;
        stride *= (ptrdiff_t)making->extent[k];
    }
}

/* The bytes of what is to be made; where no size has so many, all images end. */
static size_t size_of(const struct making *making) {
    size_t size = (size_t)making->item;
    for (uint32_t k = 0; k < making->rank; k++)
        if (__builtin_mul_overflow(size, (size_t)making->extent[k], &size))
            caf_die("a component is to be allocated that has more bytes than there can be");
    return size;
}

void caf_make_handler(gasnet_token_t from, void *bytes, size_t length) {
    const struct making *making = bytes;
    const size_t size = size_of(making);
    void **slot = (void **)(uintptr_t)making->slot;
    struct caf_token **token = (struct caf_token **)(uintptr_t)making->token_slot;
    (void)length;
    caf_token_forget(*token, *slot);
    free(*slot);
    void *memory = caf_zeros(size);
    if (making->is_array)
        write_bounds((struct caf_descriptor *)slot, making, memory);
    else
        *slot = memory;
    *token = caf_token_component(memory, size);
    gasnet_AMReplyShort4(from, CAF_MAKE_DONE, caf_low(making->answer), caf_high(making->answer), 0, 0);
}

void caf_make_done_handler(gasnet_token_t from, int32_t low, int32_t high, int32_t at_low, int32_t at_high) {
    struct made *made = (struct made *)(uintptr_t)caf_join(low, high);
    (void)from;
    (void)at_low;
    (void)at_high;
    made->has_come = true;
}

void caf_make(int node, const struct caf_missing *missing, const struct caf_descriptor *shape, size_t item) {
    const struct caf_reference *array = missing->component->next;
    struct made made = { false };
    struct making making = { .slot = missing->slot,
                             .token_slot = missing->token_slot,
                             .answer = caf_address(&made),
                             .item = item,
                             .type = (uint32_t)shape->dtype.type,
                             .is_array = array != NULL };
    if (array && rank_of(array) != shape->dtype.rank)
        caf_die("a component that isn't allocated is assigned an array of another rank");
    making.rank = array ? (uint32_t)shape->dtype.rank : 0;
    for (uint32_t k = 0; k < making.rank; k++) {
        ptrdiff_t extent = shape->dim[k].upper - shape->dim[k].lower + 1;
        making.extent[k] = extent > 0 ? (uint64_t)extent : 0;
    }
    caf_settle(node);
    gasnet_AMRequestMedium0((gasnet_node_t)node, CAF_MAKE, &making, sizeof making);
    GASNET_BLOCKUNTIL(made.has_come);
}
