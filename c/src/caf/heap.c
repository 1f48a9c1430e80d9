#include "heap.h"

#include <stdint.h>

enum { UNIT = 64 };

/* The head of a block: its bytes follow. */
struct caf_block {
    size_t bytes; /* with the head */
    struct caf_block *next;
    char filling[UNIT - sizeof(size_t) - sizeof(void *)];
};

_Static_assert(sizeof(struct caf_block) == UNIT, "a head is one unit");

static struct caf_block *after(struct caf_block *block) { return (struct caf_block *)((char *)block + block->bytes); }

void caf_heap_start(struct caf_heap *heap, void *memory, size_t bytes) {
    heap->free = NULL;
    if (bytes < 2 * UNIT)
        return;
    heap->free = memory;
    heap->free->bytes = bytes / UNIT * UNIT;
    heap->free->next = NULL;
}

void *caf_heap_take(struct caf_heap *heap, size_t bytes) {
    if (bytes > SIZE_MAX - 2 * UNIT)
        return NULL;
    size_t whole = (bytes + UNIT - 1) / UNIT * UNIT + UNIT;
    struct caf_block **at = &heap->free;
    while (*at && (*at)->bytes < whole)
        at = &(*at)->next;
    struct caf_block *block = *at;
    if (!block)
        return NULL;
    if (block->bytes - whole >= 2 * UNIT) {
        struct caf_block *rest = (struct caf_block *)((char *)block + whole);
        rest->bytes = block->bytes - whole;
        rest->next = block->next;
        block->bytes = whole;
        *at = rest;
    } else
        *at = block->next;
    return (char *)block + UNIT;
}

void caf_heap_give(struct caf_heap *heap, void *memory) {
    struct caf_block *block = (struct caf_block *)((char *)memory - UNIT), *before = NULL;
    struct caf_block **at = &heap->free;
    while (*at && *at < block) {
        before = *at;
        at = &before->next;
    }
    block->next = *at;
    *at = block;
    if (block->next && after(block) == block->next) {
        block->bytes += block->next->bytes;
        block->next = block->next->next;
    }
    if (before && after(before) == block) {
        before->bytes += block->bytes;
        before->next = block->next;
    }
}
