#include "transfer.h"

#include <stdlib.h>
#include <string.h>

#include "errors.h"
#include "far.h"
#include "state.h"
#include "token.h"

/* The elements of an array here, which its section packs; freed by the caller. */
static unsigned char *packed(struct caf_section *section, size_t length) {
    unsigned char *bytes = caf_memory(length);
    caf_pack(section, 0, bytes, length);
    return bytes;
}

static void check_counts(size_t there, size_t here) {
    if (there != here)
        caf_die("%zu elements of a coarray are assigned to or from %zu elements", there, here);
}

void caf_assign_here(struct caf_far *source, const struct caf_descriptor *target, int target_kind) {
    const struct caf_type to = caf_type_of(target, target_kind);
    struct caf_section here = caf_section_of(target, (uintptr_t)target->base);
    size_t count = caf_section_count(&source->section), room = caf_section_count(&here);
    check_counts(count, count == 1 ? 1 : room);
    bool is_same = caf_is_same_type(&to, &source->type) && count == room;
    caf_section_join(&here);
    caf_section_join(&source->section);
    if (is_same && !here.rank && source->node != caf_state.me)
        caf_fetch(source->node, &source->section, (void *)here.base);
    else {
        unsigned char *bytes = caf_memory(count * source->type.size), *converted = bytes;
        caf_fetch(source->node, &source->section, bytes);
        if (!is_same) {
            converted = caf_memory(room * to.size);
            caf_convert(&to, converted, &source->type, bytes, count == 1 ? 0 : source->type.size, room);
        }
        caf_unpack(&here, 0, converted, room * to.size);
        if (!is_same)
            free(converted);
        free(bytes);
    }
    caf_section_free(&source->section);
}

void caf_assign_there(struct caf_far *target, const struct caf_descriptor *source, int source_kind) {
    const struct caf_type from = caf_type_of(source, source_kind);
    struct caf_section here = caf_section_of(source, (uintptr_t)source->base);
    size_t count = caf_section_count(&target->section), known = caf_section_count(&here);
    check_counts(count, known == 1 ? count : known);
    bool is_same = caf_is_same_type(&target->type, &from) && count == known;
    caf_section_join(&here);
    caf_section_join(&target->section);
    if (is_same && !here.rank && target->node != caf_state.me)
        caf_store(target->node, &target->section, (const void *)here.base);
    else {
        unsigned char *bytes = packed(&here, known * from.size), *converted = bytes;
        if (!is_same) {
            converted = caf_memory(count * target->type.size);
            caf_convert(&target->type, converted, &from, bytes, known == 1 ? 0 : from.size, count);
        }
        caf_store(target->node, &target->section, converted);
        if (!is_same)
            free(converted);
        free(bytes);
    }
    caf_section_free(&target->section);
}

void caf_assign_between(struct caf_far *target, struct caf_far *source) {
    size_t count = caf_section_count(&source->section);
    unsigned char *bytes = caf_memory(count * source->type.size);
    caf_section_join(&source->section);
    caf_fetch(source->node, &source->section, bytes);
    struct caf_descriptor all = { .base = bytes, .span = (ptrdiff_t)source->type.size };
    all.dtype.elem_len = source->type.size;
    all.dtype.type = (int8_t)source->type.type;
    all.dtype.rank = 1;
    all.dim[0] = (struct caf_bounds){ 1, 1, (ptrdiff_t)count };
    caf_assign_there(target, &all, source->type.kind);
    caf_section_free(&source->section);
    free(bytes);
}

/* ---- The calls. */

/* Of a substring gfortran hands on the length of the whole text, so texts may reach too far. */
static bool lies_within(const struct caf_far *far, const struct caf_token *token) {
    uintptr_t low, high, base = token->bases[far->node];
    if (!caf_section_count(&far->section))
        return true;
    caf_section_hull(&far->section, &low, &high);
    return low >= base && low - base <= token->bytes &&
           (far->type.type == CAF_CHARACTER || high - base <= token->bytes);
}

/* So of a substring of a coarray that is one text, what lies behind the coarray is left alone. */
static void cut_text(struct caf_far *far, const struct caf_token *token) {
    uintptr_t end = token->bases[far->node] + token->bytes, at = far->section.base;
    if (far->type.type == CAF_CHARACTER && !far->section.rank && at < end && far->section.run > end - at)
        far->section.run = far->type.size = end - at;
}

/* gfortran 12 hands on the place of a copy here where a coarray is a complex scalar: then the coarray is meant. It does
 * so for a vector subscript within an expression too, and that vector is lost; of this image itself the copy is what is
 * wanted. */
static void mend_place(struct caf_far *far, const struct caf_token *token) {
    cut_text(far, token);
    if (lies_within(far, token))
        return;
    if (!far->section.rank && far->type.size == token->bytes)
        far->section.base = token->bases[far->node];
    else if (far->node != caf_state.me)
        caf_die(
            "elements outside of a coarray are referred to: a subscript is wrong, or is a vector within an expression");
}

/* Beside a vector the bounds of an array that has no descriptor of its own are those of the section, from the array's
 * lower bounds on. So there a triplet that goes to the array's end has a wrong end, but as many elements as its
 * dimension. */
static struct caf_section chosen(const struct caf_descriptor *array, uintptr_t base,
                                 const struct caf_subscript *subscripts, size_t wanted) {
    struct caf_section section = caf_section_chosen(array, base, subscripts, false);
    if (!wanted || caf_section_count(&section) == wanted)
        return section;
    struct caf_section other = caf_section_chosen(array, base, subscripts, true);
    bool is_wanted = caf_section_count(&other) == wanted;
    caf_section_free(is_wanted ? &section : &other);
    return is_wanted ? other : section;
}

/* How many elements a section has to have: as many as the other side; 0 where any number is right. */
static size_t wanted_by(const struct caf_descriptor *other) {
    const struct caf_section section = caf_section_of(other, 0);
    return other->dtype.rank ? caf_section_count(&section) : 0;
}

/* What a call hands on of an array of another image. */
struct named {
    struct caf_token *token;
    size_t offset;
    int image;
    const struct caf_descriptor *array;
    struct caf_subscript *subscripts;
    int kind;
};

/* The section of a coarray that a call names; false where the call ends here, and its stat is set. */
static bool find(struct caf_far *far, const struct named *named, size_t wanted, int *stat) {
    const struct caf_report report = { stat, NULL, 0 };
    far->node = caf_node(named->image);
    far->type = caf_type_of(named->array, named->kind);
    uintptr_t base = caf_token_at(named->token, far->node, named->offset, &report);
    if (!base)
        return false;
    far->section =
        named->subscripts ? chosen(named->array, base, named->subscripts, wanted) : caf_section_of(named->array, base);
    mend_place(far, named->token);
    caf_report_success(&report);
    return true;
}

/* A vector of no index can't be told from a triplet; but then there is nothing to be moved. */
static bool is_empty(const struct caf_descriptor *array) {
    const struct caf_section section = caf_section_of(array, 0);
    return !caf_section_count(&section);
}

void _gfortran_caf_get(struct caf_token *token, size_t offset, int image, struct caf_descriptor *source,
                       struct caf_subscript *subscripts, struct caf_descriptor *target, int source_kind,
                       int target_kind, bool may_overlap, int *stat) {
    struct caf_far far;
    (void)may_overlap;
    const struct named named = { token, offset, image, source, is_empty(target) ? NULL : subscripts, source_kind };
    if (!find(&far, &named, wanted_by(target), stat))
        return;
    if (is_empty(target))
        caf_section_free(&far.section);
    else
        caf_assign_here(&far, target, target_kind);
}

void _gfortran_caf_send(struct caf_token *token, size_t offset, int image, struct caf_descriptor *target,
                        struct caf_subscript *subscripts, struct caf_descriptor *source, int target_kind,
                        int source_kind, bool may_overlap, int *stat, struct caf_team **team) {
    struct caf_far far;
    (void)may_overlap;
    (void)team;
    const struct named named = { token, offset, image, target, is_empty(source) ? NULL : subscripts, target_kind };
    if (!find(&far, &named, wanted_by(source), stat))
        return;
    if (is_empty(source))
        caf_section_free(&far.section);
    else
        caf_assign_there(&far, source, source_kind);
}

void _gfortran_caf_sendget(struct caf_token *target_token, size_t target_offset, int target_image,
                           struct caf_descriptor *target, struct caf_subscript *target_subscripts,
                           struct caf_token *source_token, size_t source_offset, int source_image,
                           struct caf_descriptor *source, struct caf_subscript *source_subscripts, int target_kind,
                           int source_kind, bool may_overlap, int *stat) {
    struct caf_far to, from;
    (void)may_overlap;
    const struct named there = { source_token, source_offset, source_image, source, source_subscripts, source_kind };
    const struct named here = { target_token, target_offset, target_image, target, target_subscripts, target_kind };
    if (!find(&from, &there, target_subscripts ? 0 : wanted_by(target), stat))
        return;
    if (find(&to, &here, source->dtype.rank ? caf_section_count(&from.section) : 0, stat))
        caf_assign_between(&to, &from);
    else
        caf_section_free(&from.section);
}
