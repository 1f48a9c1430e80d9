/* Collectives over all nodes of the job: broadcast, gather, all-gather, and reductions of words of 64 bits. gasnet.h
 * includes it.
 *
 * The names that begin with gex_ are GASNet-EX's. All nodes call the same collectives in the same order, each with one
 * kind, root, length, operation and type. A node that finds that another one called with another kind or root ends the
 * job with a line. (Nodes whose lengths differ may wait for one another instead, or take pieces of one collective for
 * another's, if it has more than 8,192 bytes a node. Another type isn't found.) If several threads of a node call
 * collectives, the client orders the calls.
 *
 * Each call begins a collective, and answers an event. `src` is read, and `dst` written, until the event is
 * synchronised, by gex_Event_Wait or as any gasnet_handle_t; other calls may be made in between. A handler makes none
 * of these calls. Both lie anywhere. They may be equal if they are equally long; otherwise they don't overlap, but for
 * the part of `dst` that this node's `src` fills. At a node without a result `dst` isn't read. A collective ends at no
 * node before all have begun it.
 *
 * No client registers the handler 254; if one did, its first collective ends the job. The team is all nodes, whatever
 * `tm` is, and no flag changes what a call does. */
#ifndef GASNET_COLL_H
#define GASNET_COLL_H

/* A barrier: GASNET_OK of its event says that all nodes called it. */
gex_Event_t gex_Coll_BarrierNB(gex_TM_t tm, gex_Flags_t flags);

/* Each node, the root too, receives in its `dst` the `nbytes` bytes at the root's `src`. No other `src` is read. */
gex_Event_t gex_Coll_BroadcastNB(gex_TM_t tm, gex_Rank_t root, void *dst, const void *src, size_t nbytes,
                                 gex_Flags_t flags);

/* The root receives in its `dst` the `nbytes` bytes at each node's `src`, in the order of the nodes. */
gex_Event_t gasnet_coll_gather_nb(gex_TM_t tm, gex_Rank_t root, void *dst, const void *src, size_t nbytes,
                                  gex_Flags_t flags);

/* As above; each node receives the result. */
gex_Event_t gasnet_coll_gather_all_nb(gex_TM_t tm, void *dst, const void *src, size_t nbytes, gex_Flags_t flags);

/* ---- Reductions, of GEX_DT_U64 and GEX_DT_I64 by GEX_OP_ADD (modulo 2^64), GEX_OP_MIN and GEX_OP_MAX: place by place
 * of the `dt_cnt` words at all nodes' `src`. `dt_sz` is 8. There are no operations of the client's: `user_op` and
 * `user_cdata` aren't read. */
typedef void (*gex_Coll_ReduceFn_t)(const void *arg1, void *arg2_and_out, size_t count, const void *cdata);

/* The root receives the words. */
gex_Event_t gex_Coll_ReduceToOneNB(gex_TM_t tm, gex_Rank_t root, void *dst, const void *src, gex_DT_t dt, size_t dt_sz,
                                   size_t dt_cnt, gex_OP_t op, gex_Coll_ReduceFn_t user_op, void *user_cdata,
                                   gex_Flags_t flags);

/* As above; each node receives the result. */
gex_Event_t gex_Coll_ReduceToAllNB(gex_TM_t tm, void *dst, const void *src, gex_DT_t dt, size_t dt_sz, size_t dt_cnt,
                                   gex_OP_t op, gex_Coll_ReduceFn_t user_op, void *user_cdata, gex_Flags_t flags);

/* ---- The same calls, which wait for the end. */

static inline void gasnet_coll_barrier(gex_TM_t tm, gex_Flags_t flags) {
    gex_Event_Wait(gex_Coll_BarrierNB(tm, flags));
}

static inline void gasnet_coll_broadcast(gex_TM_t tm, gex_Rank_t root, void *dst, const void *src, size_t nbytes,
                                         gex_Flags_t flags) {
    gex_Event_Wait(gex_Coll_BroadcastNB(tm, root, dst, src, nbytes, flags));
}

static inline void gasnet_coll_gather(gex_TM_t tm, gex_Rank_t root, void *dst, const void *src, size_t nbytes,
                                      gex_Flags_t flags) {
    gex_Event_Wait(gasnet_coll_gather_nb(tm, root, dst, src, nbytes, flags));
}

static inline void gasnet_coll_gather_all(gex_TM_t tm, void *dst, const void *src, size_t nbytes, gex_Flags_t flags) {
    gex_Event_Wait(gasnet_coll_gather_all_nb(tm, dst, src, nbytes, flags));
}

static inline void gasnet_coll_reduce(gex_TM_t tm, gex_Rank_t root, void *dst, const void *src, gex_DT_t dt,
                                      size_t dt_cnt, gex_OP_t op, gex_Flags_t flags) {
    gex_Event_Wait(gex_Coll_ReduceToOneNB(tm, root, dst, src, dt, 8, dt_cnt, op, NULL, NULL, flags));
}

static inline void gasnet_coll_reduce_all(gex_TM_t tm, void *dst, const void *src, gex_DT_t dt, size_t dt_cnt,
                                          gex_OP_t op, gex_Flags_t flags) {
    gex_Event_Wait(gex_Coll_ReduceToAllNB(tm, dst, src, dt, 8, dt_cnt, op, NULL, NULL, flags));
}

#endif
