/* The calls whose coarray's elements are named by references. */
#include <stdlib.h>

#include "errors.h"
#include "reference.h"
#include "state.h"

static bool start(struct caf_far *far, struct caf_token *token, int image, int type, int kind, int *stat) {
    const struct caf_report report = { stat, NULL, 0 };
    far->node = caf_node(image);
    far->type = (struct caf_type){ type, kind, 0 };
    uintptr_t base = caf_token_at(token, far->node, 0, &report);
    far->section = caf_section_bytes(base, base ? token->bytes : 0);
    if (base)
        caf_report_success(&report);
    return base != 0;
}

static void not_allocated(int *stat) {
    const struct caf_report report = { stat, NULL, 0 };
    caf_report_error(&report, 1, "a component of a coindexed object is referred to that isn't allocated");
}

/* ---- The array here. */

static size_t extent(const struct caf_bounds *bounds) {
    return bounds->upper < bounds->lower ? 0 : (size_t)(bounds->upper - bounds->lower + 1);
}

static bool has_shape(const struct caf_descriptor *array, const struct caf_section *section) {
    for (int k = 0; k < array->dtype.rank && k < section->rank; k++)
        if (extent(&array->dim[k]) != section->dim[k].count)
            return false;
    return array->dtype.rank == section->rank;
}

/* Writes bounds from 1 in the shape of the section; answers how many elements these are. */
static size_t take_shape(struct caf_descriptor *array, const struct caf_section *section) {
    ptrdiff_t stride = 1;
    array->offset = 0;
    for (int k = 0; k < array->dtype.rank; k++) {
        ptrdiff_t count = k < section->rank ? (ptrdiff_t)section->dim[k].count : 1;
        array->dim[k] = (struct caf_bounds){ stride, 1, count };
        array->offset -= (size_t)stride;
        stride *= count;
    }
    array->span = (ptrdiff_t)array->dtype.elem_len;
    return (size_t)stride;
}

/* Allocates the array, where it isn't, or where it may be allocated anew in another shape. */
static void allocate_here(struct caf_descriptor *array, const struct caf_section *section, bool may_allocate) {
    if (array->base && (!may_allocate || !array->dtype.rank || has_shape(array, section)))
        return;
    size_t count = take_shape(array, section);
    array->base = caf_memory_again(array->base, count * array->dtype.elem_len);
}

void _gfortran_caf_get_by_ref(struct caf_token *token, int image, struct caf_descriptor *target,
                              struct caf_reference *references, int target_kind, int source_kind, bool may_overlap,
                              bool may_allocate, int *stat, int source_type) {
    struct caf_far far;
    struct caf_missing missing;
    (void)may_overlap;
    if (!start(&far, token, image, source_type, source_kind, stat))
        return;
    if (!caf_refer(&far, token, references, &missing)) {
        not_allocated(stat);
        return;
    }
    allocate_here(target, &far.section, may_allocate);
    caf_assign_here(&far, target, target_kind);
}

/* ---- The array there. */

/* Finds what is assigned to, and allocates it where that is asked for. */
static bool find_target(struct caf_far *far, struct caf_token *token, const struct caf_reference *references,
                        const struct caf_descriptor *shape, bool may_allocate) {
    const struct caf_far begun = *far;
    struct caf_missing missing;
    bool is_there = caf_refer(far, token, references, &missing);
    bool is_whole = may_allocate && caf_names_whole(missing.component);
    if (is_there && !(is_whole && far->section.rank && shape->dtype.rank && !has_shape(shape, &far->section)))
        return true;
    if (!is_whole)
        return is_there;
    const struct caf_reference *last = missing.component->next ? missing.component->next : missing.component;
    caf_make(far->node, &missing, shape, last->item_size);
    caf_section_free(&far->section);
    *far = begun;
    return caf_refer(far, token, references, &missing);
}

void _gfortran_caf_send_by_ref(struct caf_token *token, int image, struct caf_descriptor *source,
                               struct caf_reference *references, int target_kind, int source_kind, bool may_overlap,
                               bool may_allocate, int *stat, int target_type) {
    struct caf_far far;
    (void)may_overlap;
    if (!start(&far, token, image, target_type, target_kind, stat))
        return;
    if (find_target(&far, token, references, source, may_allocate))
        caf_assign_there(&far, source, source_kind);
    else
        not_allocated(stat);
}

/* The shape of a section, as an array that has no memory. */
static struct caf_descriptor shape_of(const struct caf_far *far) {
    struct caf_descriptor shape = { .base = NULL };
    shape.dtype.elem_len = far->type.size;
    shape.dtype.type = (int8_t)far->type.type;
    shape.dtype.rank = (int8_t)far->section.rank;
    take_shape(&shape, &far->section);
    return shape;
}

void _gfortran_caf_sendget_by_ref(struct caf_token *target_token, int target_image,
                                  struct caf_reference *target_references, struct caf_token *source_token,
                                  int source_image, struct caf_reference *source_references, int target_kind,
                                  int source_kind, bool may_overlap, int *target_stat, int *source_stat,
                                  int target_type, int source_type) {
    struct caf_far to, from;
    struct caf_missing missing;
    (void)may_overlap;
    if (!start(&from, source_token, source_image, source_type, source_kind, source_stat) ||
        !start(&to, target_token, target_image, target_type, target_kind, target_stat))
        return;
    if (!caf_refer(&from, source_token, source_references, &missing)) {
        not_allocated(source_stat);
        return;
    }
    const struct caf_descriptor shape = shape_of(&from);
    if (find_target(&to, target_token, target_references, &shape, true))
        caf_assign_between(&to, &from);
    else {
        caf_section_free(&from.section);
        not_allocated(target_stat);
    }
}

int _gfortran_caf_is_present(struct caf_token *token, int image, struct caf_reference *references) {
    struct caf_far far;
    struct caf_missing missing;
    if (!start(&far, token, image, 0, 0, NULL))
        return 0;
    bool is_there = caf_refer(&far, token, references, &missing);
    caf_section_free(&far.section);
    return is_there;
}
