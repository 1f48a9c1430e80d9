#include "heap.h"

#include <stdlib.h>

static struct gasnetl_tried tried(void *place) {
    static char nothing;
    return (struct gasnetl_tried){ place != NULL, place ? place : &nothing };
}

struct gasnetl_tried rattle_alloc(size_t bytes, size_t alignment) {
    return tried(malloc(bytes ? bytes : alignment));
}

struct gasnetl_tried rattle_realloc(void *place, size_t kept, size_t bytes, size_t alignment) {
    (void)kept;
    return tried(realloc(place, bytes ? bytes : alignment));
}

void rattle_dealloc(void *place) { free(place); }
