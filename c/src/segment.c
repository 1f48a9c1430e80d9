#include "segment.h"

#include <sys/mman.h>

#include "job.h"

enum { LEAST = 1 << 20 };

/* Whether the system gives so many addresses; it has them back. */
static bool gives(uint64_t length) {
    void *pages = mmap(NULL, length, PROT_READ | PROT_WRITE, MAP_PRIVATE | MAP_ANONYMOUS | MAP_NORESERVE, -1, 0);
    return pages != MAP_FAILED && !munmap(pages, length);
}

uintptr_t gasnetl_segment_given(uintptr_t bytes) {
    while (bytes > LEAST && !gives(2 * (bytes + GASNETL_OWN)))
        bytes = bytes / 2 / GASNET_PAGESIZE * GASNET_PAGESIZE;
    return bytes;
}

bool gasnetl_segment_open(struct gasnetl_segment *segment, uint64_t length) {
    void *pages = mmap(NULL, length, PROT_READ | PROT_WRITE, MAP_PRIVATE | MAP_ANONYMOUS | MAP_NORESERVE, -1, 0);
    if (pages == MAP_FAILED)
        return false;
    segment->base = pages;
    return true;
}

void gasnetl_segment_close(struct gasnetl_segment *segment, uint64_t length) {
    munmap(segment->base, length);
    segment->base = NULL;
}

bool gasnetl_far(const struct gasnetl_job *job, gasnet_node_t node, const void *at, size_t nbytes, uint64_t *offset) {
    uintptr_t from = (uintptr_t)at, base = (uintptr_t)job->segment.bases[node], size = job->segment.sizes[node];
    if (from < base || from - base > size || nbytes > size - (from - base))
        return false;
    *offset = from - base;
    return true;
}

bool gasnetl_straddles(const struct gasnetl_job *job, const void *at, size_t nbytes) {
    uintptr_t from = (uintptr_t)at, base = (uintptr_t)job->segment.base, length = job->segment.stage + GASNETL_OWN;
    uint64_t offset;
    bool meets = from < base ? nbytes > base - from : from - base < length;
    return nbytes && meets && !gasnetl_far(job, job->me, at, nbytes, &offset);
}
