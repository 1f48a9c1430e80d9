/* Puts of many pieces for a run-time over the layer: as gasnet_puts_nbi_bulk and gasnet_puti_nbi_bulk, but the source
 * may be used again at the return. So they wait until it is read. */
#ifndef GASNETL_PIECES_H
#define GASNETL_PIECES_H

#include "gasnet.h"

void gasnetl_puts_nbi(gasnet_node_t dstnode, void *dstaddr, const size_t dststrides[], void *srcaddr,
                      const size_t srcstrides[], const size_t count[], size_t stridelevels);
void gasnetl_puti_nbi(gasnet_node_t dstnode, size_t dstcount, void *const dstlist[], size_t dstlen, size_t srccount,
                      void *const srclist[], size_t srclen);

#endif
