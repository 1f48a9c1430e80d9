/* Puts of bytes that lie together. */
#ifndef COMEXG_CONTIGUOUS_H
#define COMEXG_CONTIGUOUS_H

#include "state.h"

/* As comex_put does, by the number of a node, and of more bytes than an int counts too. */
void comexg_put(int node, void *dst, void *src, size_t bytes);

#endif
