/* The memory of this image's coarrays: blocks of its segment, whose addresses are multiples of 64. */
#ifndef CAF_HEAP_H
#define CAF_HEAP_H

#include <stddef.h>

struct caf_block;

struct caf_heap {
    struct caf_block *free; /* those that are free, by address; none touches the next */
};

/* Makes a heap of the memory, which begins at a multiple of 64. */
void caf_heap_start(struct caf_heap *heap, void *memory, size_t bytes);

/* A block of so many bytes, or null where none is that long. */
void *caf_heap_take(struct caf_heap *heap, size_t bytes);

/* Gives a block back that was taken. */
void caf_heap_give(struct caf_heap *heap, void *block);

#endif
