#include "runs.h"

#include <string.h>

enum { BITS = 7, MORE = 0x80, WIDEST = 56 }; /* of a byte's number; the shift of the last byte that is read */

/* ---- Numbers. */

static uint8_t *write_number(uint8_t *at, uint64_t number) {
    for (; number >= MORE; number >>= BITS)
        *at++ = (uint8_t)(number | MORE);
    *at++ = (uint8_t)number;
    return at;
}

static uint64_t number_of(int64_t distance) { return (uint64_t)distance << 1 ^ (uint64_t)(distance >> 63); }

static int64_t distance_of(uint64_t number) { return (int64_t)(number >> 1 ^ (0 - (number & 1))); }

/* What is to be read. */
struct reader {
    const uint8_t *at, *end;
    uint64_t behind; /* where the last piece of the run before ends */
};

static bool read_number(struct reader *reader, uint64_t *number) {
    *number = 0;
    for (unsigned shift = 0; shift <= WIDEST && reader->at < reader->end; shift += BITS) {
        uint8_t byte = *reader->at++;
        *number |= (uint64_t)(byte & (MORE - 1)) << shift;
        if (!(byte & MORE))
            return true;
    }
    return false;
}

/* ---- Runs. */

static uint64_t last_of(const struct gasnetl_run_of_pieces *run) {
    return run->offset + (run->count - 1) * (uint64_t)run->stride;
}

void gasnetl_runs_start(struct gasnetl_runs *runs) {
    runs->last.count = 0;
    runs->end = 0;
    runs->length = 0;
}

size_t gasnetl_runs_end(struct gasnetl_runs *runs) {
    const struct gasnetl_run_of_pieces *last = &runs->last;
    uint8_t *at = runs->bytes + runs->length;
    if (!last->count)
        return runs->length;
    at = write_number(at, number_of((int64_t)(last->offset - runs->end)));
    at = write_number(at, last->nbytes << 1 | (last->count > 1));
    if (last->count > 1) {
        at = write_number(at, last->count);
        at = write_number(at, number_of(last->stride));
    }
    runs->end = last_of(last) + last->nbytes;
    runs->length = (size_t)(at - runs->bytes);
    runs->last.count = 0;
    return runs->length;
}

/* Whether a run goes on where the last one ends, in steps of the same length. */
static bool goes_on(const struct gasnetl_run_of_pieces *last, const struct gasnetl_run_of_pieces *run) {
    const int64_t step = (int64_t)(run->offset - last_of(last));
    return last->count && last->nbytes == run->nbytes && (last->count == 1 || step == last->stride) &&
           (run->count == 1 || step == run->stride);
}

void gasnetl_runs_add(struct gasnetl_runs *runs, const struct gasnetl_run_of_pieces *run) {
    struct gasnetl_run_of_pieces *last = &runs->last;
    if (goes_on(last, run)) {
        last->stride = (int64_t)(run->offset - last_of(last));
        last->count += run->count;
        return;
    }
    gasnetl_runs_end(runs);
    *last = *run;
}

/* Reads the next run. False where there is none, or what is there is none. */
static bool read_run(struct reader *reader, struct gasnetl_run_of_pieces *run) {
    uint64_t distance, length, stride = 0;
    run->count = 1;
    if (!read_number(reader, &distance) || !read_number(reader, &length))
        return false;
    if (length & 1 && (!read_number(reader, &run->count) || !read_number(reader, &stride)))
        return false;
    run->offset = reader->behind + (uint64_t)distance_of(distance);
    run->nbytes = length >> 1;
    run->stride = distance_of(stride);
    reader->behind = last_of(run) + run->nbytes;
    return true;
}

/* ---- What they name. */

/* Whether these bytes lie in the first `size` ones. */
static bool is_inside(uint64_t offset, uint64_t nbytes, uint64_t size) {
    return offset <= size && nbytes <= size - offset;
}

/* Whether the run has so many bytes at most, and its first and its last piece lie in the segment: then all do. */
static bool fits(const struct gasnetl_run_of_pieces *run, uint64_t most, uint64_t size) {
    const int64_t widest = (int64_t)1 << 42;
    return run->nbytes && run->count && run->nbytes <= most && run->count <= most / run->nbytes &&
           run->stride > -widest && run->stride < widest && is_inside(run->offset, run->nbytes, size) &&
           is_inside(last_of(run), run->nbytes, size);
}

size_t gasnetl_runs_judge(const uint8_t *bytes, size_t length, uint64_t size) {
    struct reader reader = { bytes, bytes + length, 0 };
    struct gasnetl_run_of_pieces run;
    size_t total = 0;
    while (reader.at < reader.end) {
        if (!read_run(&reader, &run) || !fits(&run, GASNET_C_PAYLOAD - total, size))
            return 0;
        total += run.nbytes * run.count;
    }
    return total;
}

static inline void copy_each(const struct gasnetl_copies *all, size_t nbytes) {
    for (uint64_t i = 0; i < all->count; i++)
        memcpy(all->to + (int64_t)i * all->to_step, all->from + (int64_t)i * all->from_step, nbytes);
}

/* Pieces of a word are copied without a call of the C library. */
void gasnetl_copy_pieces(const struct gasnetl_copies *all) {
    if (all->nbytes == sizeof(uint64_t))
        copy_each(all, sizeof(uint64_t));
    else if (all->nbytes == sizeof(uint32_t))
        copy_each(all, sizeof(uint32_t));
    else
        copy_each(all, all->nbytes);
}

void gasnetl_runs_gather(const uint8_t *bytes, size_t length, const uint8_t *segment, uint8_t *data) {
    struct reader reader = { bytes, bytes + length, 0 };
    struct gasnetl_run_of_pieces run;
    while (reader.at < reader.end && read_run(&reader, &run)) {
        gasnetl_copy_pieces(&(struct gasnetl_copies){ data, segment + run.offset, (int64_t)run.nbytes, run.stride,
                                                      run.nbytes, run.count });
        data += run.nbytes * run.count;
    }
}

void gasnetl_runs_spread(const uint8_t *bytes, size_t length, uint8_t *segment, const uint8_t *data) {
    struct reader reader = { bytes, bytes + length, 0 };
    struct gasnetl_run_of_pieces run;
    while (reader.at < reader.end && read_run(&reader, &run)) {
        gasnetl_copy_pieces(&(struct gasnetl_copies){ segment + run.offset, data, run.stride, (int64_t)run.nbytes,
                                                      run.nbytes, run.count });
        data += run.nbytes * run.count;
    }
}
