#include "section.h"

#include <stdlib.h>
#include <string.h>

#include "errors.h"

struct caf_section caf_section_bytes(uintptr_t base, size_t length) {
    return (struct caf_section){ .base = base, .run = length };
}

void caf_section_add(struct caf_section *section, size_t count, ptrdiff_t stride, ptrdiff_t *places) {
    if (section->rank == CAF_RANKS)
        caf_die("a reference has more than %d ranks", CAF_RANKS);
    section->dim[section->rank++] = (struct caf_dimension){ count, stride, places };
}

/* gfortran doesn't set the span of each descriptor that it makes for a component. */
static ptrdiff_t span_of(const struct caf_descriptor *array) {
    ptrdiff_t least = (ptrdiff_t)array->dtype.elem_len;
    return array->span >= least && array->span < INT32_MAX ? array->span : least;
}

static size_t extent(ptrdiff_t first, ptrdiff_t last, ptrdiff_t stride) {
    ptrdiff_t count = stride ? (last - first) / stride + 1 : 0;
    bool is_empty = !stride || (stride > 0 ? last < first : last > first);
    return is_empty ? 0 : (size_t)count;
}

void caf_mend_span(struct caf_descriptor *array) {
    const struct caf_bounds *dim = array->dim;
    if (array->dtype.rank == 1 && array->offset != (size_t) - (dim->lower * dim->stride))
        array->span = (ptrdiff_t)array->dtype.elem_len;
}

struct caf_descriptor caf_without_elements(struct caf_descriptor *array) {
    struct caf_descriptor none = { .base = array, .dtype = array->dtype, .dim[0] = { 1, 1, 0 } };
    none.dtype.rank = 1;
    none.span = (ptrdiff_t)array->dtype.elem_len;
    return none;
}

struct caf_section caf_section_of(const struct caf_descriptor *array, uintptr_t base) {
    struct caf_section section = caf_section_bytes(base, array->dtype.elem_len);
    for (int k = 0; k < array->dtype.rank; k++)
        caf_section_add(&section, extent(array->dim[k].lower, array->dim[k].upper, 1),
                        array->dim[k].stride * span_of(array), NULL);
    return section;
}

ptrdiff_t caf_index(const void *vector, int kind, size_t i) {
    switch (kind) {
    case 1:
        return ((const int8_t *)vector)[i];
    case 2:
        return ((const int16_t *)vector)[i];
    case 4:
        return ((const int32_t *)vector)[i];
    case 8:
        return (ptrdiff_t)((const int64_t *)vector)[i];
    case 16:
        return (ptrdiff_t)((const __int128 *)vector)[i];
    default:
        caf_die("a vector subscript is of kind %d, which isn't known", kind);
    }
}

static ptrdiff_t *places_of(const struct caf_subscript *subscript, ptrdiff_t lower, ptrdiff_t step) {
    ptrdiff_t *places = caf_memory(subscript->nvec * sizeof *places);
    for (size_t i = 0; i < subscript->nvec; i++)
        places[i] = (caf_index(subscript->u.v.vector, subscript->u.v.kind, i) - lower) * step;
    return places;
}

struct caf_section caf_section_chosen(const struct caf_descriptor *array, uintptr_t base,
                                      const struct caf_subscript *subscripts, bool by_extents) {
    struct caf_section section = caf_section_bytes(base, array->dtype.elem_len);
    for (int k = 0; k < array->dtype.rank; k++) {
        const struct caf_subscript *subscript = &subscripts[k];
        ptrdiff_t lower = array->dim[k].lower, step = array->dim[k].stride * span_of(array);
        if (subscript->nvec) {
            caf_section_add(&section, subscript->nvec, 0, places_of(subscript, lower, step));
            continue;
        }
        ptrdiff_t first = subscript->u.triplet.lower, stride = subscript->u.triplet.stride;
        size_t count =
            by_extents ? extent(lower, array->dim[k].upper, 1) : extent(first, subscript->u.triplet.upper, stride);
        section.base += (uintptr_t)((first - lower) * step);
        caf_section_add(&section, count, stride * step, NULL);
    }
    return section;
}

void caf_section_free(struct caf_section *section) {
    for (int k = 0; k < section->rank; k++) {
        free(section->dim[k].places);
        section->dim[k].places = NULL;
    }
}

size_t caf_section_count(const struct caf_section *section) {
    size_t count = 1;
    for (int k = 0; k < section->rank; k++)
        count *= section->dim[k].count;
    return count;
}

size_t caf_section_length(const struct caf_section *section) { return caf_section_count(section) * section->run; }

/* Whether the dimension goes on where the one before it ends. */
static bool follows(const struct caf_dimension *before, const struct caf_dimension *next) {
    return !before->places && !next->places && next->stride == before->stride * (ptrdiff_t)before->count;
}

void caf_section_join(struct caf_section *section) {
    int kept = 0;
    for (int k = 0; k < section->rank; k++) {
        struct caf_dimension next = section->dim[k];
        if (next.count == 1) {
            section->base += next.places ? (uintptr_t)next.places[0] : 0;
            free(next.places);
        } else if (!kept && !next.places && next.stride == (ptrdiff_t)section->run)
            section->run *= next.count;
        else if (kept && follows(&section->dim[kept - 1], &next))
            section->dim[kept - 1].count *= next.count;
        else
            section->dim[kept++] = next;
    }
    section->rank = kept;
}

static ptrdiff_t place(const struct caf_dimension *dimension, size_t i) {
    return dimension->places ? dimension->places[i] : (ptrdiff_t)i * dimension->stride;
}

void caf_section_hull(const struct caf_section *section, uintptr_t *low, uintptr_t *high) {
    ptrdiff_t least = 0, most = 0;
    for (int k = 0; k < section->rank; k++) {
        const struct caf_dimension *dimension = &section->dim[k];
        size_t step = dimension->places || dimension->count < 2 ? 1 : dimension->count - 1;
        ptrdiff_t below = dimension->count ? place(dimension, 0) : 0, above = below;
        for (size_t i = 0; i < dimension->count; i += step) {
            ptrdiff_t at = place(dimension, i);
            below = at < below ? at : below;
            above = at > above ? at : above;
        }
        least += below;
        most += above;
    }
    *low = section->base + (uintptr_t)least;
    *high = section->base + (uintptr_t)most + section->run;
}

/* ---- Walks. */

struct caf_walk caf_walk_from(const struct caf_section *section, size_t first) {
    struct caf_walk walk = { .section = section, .at = section->base, .within = first % section->run };
    size_t rest = first / section->run;
    for (int k = 0; k < section->rank; k++) {
        walk.index[k] = rest % section->dim[k].count;
        rest /= section->dim[k].count;
        walk.at += (uintptr_t)place(&section->dim[k], walk.index[k]);
    }
    return walk;
}

static void next_run(struct caf_walk *walk) {
    walk->within = 0;
    for (int k = 0; k < walk->section->rank; k++) {
        const struct caf_dimension *dimension = &walk->section->dim[k];
        ptrdiff_t before = place(dimension, walk->index[k]);
        bool is_over = ++walk->index[k] == dimension->count;
        if (is_over)
            walk->index[k] = 0;
        walk->at += (uintptr_t)(place(dimension, walk->index[k]) - before);
        if (!is_over)
            return;
    }
}

uintptr_t caf_walk_next(struct caf_walk *walk, size_t most, size_t *length) {
    uintptr_t at = walk->at + walk->within;
    size_t left = walk->section->run - walk->within;
    *length = left < most ? left : most;
    walk->within += *length;
    if (walk->within == walk->section->run)
        next_run(walk);
    return at;
}

void caf_pack(const struct caf_section *from, size_t first, void *bytes, size_t length) {
    unsigned char *to = bytes;
    if (!length)
        return;
    struct caf_walk walk = caf_walk_from(from, first);
    for (size_t done = 0, piece; done < length; done += piece) {
        uintptr_t at = caf_walk_next(&walk, length - done, &piece);
        memcpy(to + done, (const void *)at, piece);
    }
}

void caf_unpack(const struct caf_section *to, size_t first, const void *bytes, size_t length) {
    const unsigned char *from = bytes;
    if (!length)
        return;
    struct caf_walk walk = caf_walk_from(to, first);
    for (size_t done = 0, piece; done < length; done += piece) {
        uintptr_t at = caf_walk_next(&walk, length - done, &piece);
        memcpy((void *)at, from + done, piece);
    }
}
