/* The memory that the proved library asks for: what it takes from C beside memcpy, memmove and memset. The contracts
 * are those of the kit's crate `libc` (heap.rt); sizes and alignments are those of a Rust `Layout`, the alignment a
 * power of two of at most 16. malloc, realloc and free are one allocator's, and give a block each alignment up to 16
 * that divides its size. */
#ifndef GASNETL_HEAP_H
#define GASNETL_HEAP_H

#include <stdbool.h>
#include <stddef.h>

/* Whether there is memory, and where; where there is none, a place that isn't NULL, and of which nothing is used. */
struct gasnetl_tried {
    bool ok;
    void *place;
};

/* A fresh block of so many bytes. One of no bytes has a place of its own too. */
struct gasnetl_tried rattle_alloc(size_t bytes, size_t alignment);

/* Makes the block at a place one of so many bytes, of which the first `kept`, at most as many as either has, stay as
 * they are. It may move. Where there is no memory for it the block is as it was. */
struct gasnetl_tried rattle_realloc(void *place, size_t kept, size_t bytes, size_t alignment);

/* Frees a block that one of the two answered. */
void rattle_dealloc(void *place);

#endif
