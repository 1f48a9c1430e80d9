/* The requests and replies of GASNet 1.8.1's core API: gasnet_AMRequestShort0 to gasnet_AMReplyLong16. Part of
 * gasnet.h.
 *
 * Each of them is a small inline function that hands its arguments on as an array. */
#ifndef GASNET_MESSAGES_H
#define GASNET_MESSAGES_H

/* A message, as the functions below hand it on. */
struct gasnetl_message {
    int category; /* 0: Short; 1: Medium; 2: Long */
    gasnet_handler_t handler;
    const void *source;
    size_t nbytes;
    void *dest; /* a Long's place */
    unsigned count;
    const gasnet_handlerarg_t *args;
};

int gasnetl_request(gasnet_node_t node, const struct gasnetl_message *message);
int gasnetl_reply(gasnet_token_t token, const struct gasnetl_message *message);

/* Parameters arg0 to argN-1, and their names, each behind a comma. */
#define GASNETL_P0
#define GASNETL_P1 GASNETL_P0, gasnet_handlerarg_t arg0
#define GASNETL_P2 GASNETL_P1, gasnet_handlerarg_t arg1
#define GASNETL_P3 GASNETL_P2, gasnet_handlerarg_t arg2
#define GASNETL_P4 GASNETL_P3, gasnet_handlerarg_t arg3
#define GASNETL_P5 GASNETL_P4, gasnet_handlerarg_t arg4
#define GASNETL_P6 GASNETL_P5, gasnet_handlerarg_t arg5
#define GASNETL_P7 GASNETL_P6, gasnet_handlerarg_t arg6
#define GASNETL_P8 GASNETL_P7, gasnet_handlerarg_t arg7
#define GASNETL_P9 GASNETL_P8, gasnet_handlerarg_t arg8
#define GASNETL_P10 GASNETL_P9, gasnet_handlerarg_t arg9
#define GASNETL_P11 GASNETL_P10, gasnet_handlerarg_t arg10
#define GASNETL_P12 GASNETL_P11, gasnet_handlerarg_t arg11
#define GASNETL_P13 GASNETL_P12, gasnet_handlerarg_t arg12
#define GASNETL_P14 GASNETL_P13, gasnet_handlerarg_t arg13
#define GASNETL_P15 GASNETL_P14, gasnet_handlerarg_t arg14
#define GASNETL_P16 GASNETL_P15, gasnet_handlerarg_t arg15
#define GASNETL_A0 0
#define GASNETL_A1 arg0
#define GASNETL_A2 GASNETL_A1, arg1
#define GASNETL_A3 GASNETL_A2, arg2
#define GASNETL_A4 GASNETL_A3, arg3
#define GASNETL_A5 GASNETL_A4, arg4
#define GASNETL_A6 GASNETL_A5, arg5
#define GASNETL_A7 GASNETL_A6, arg6
#define GASNETL_A8 GASNETL_A7, arg7
#define GASNETL_A9 GASNETL_A8, arg8
#define GASNETL_A10 GASNETL_A9, arg9
#define GASNETL_A11 GASNETL_A10, arg10
#define GASNETL_A12 GASNETL_A11, arg11
#define GASNETL_A13 GASNETL_A12, arg12
#define GASNETL_A14 GASNETL_A13, arg13
#define GASNETL_A15 GASNETL_A14, arg14
#define GASNETL_A16 GASNETL_A15, arg15

/* A function with N arguments: its name, the way (request or reply), its first and its own parameters, and what stands
 * at the category, the source, its length and a Long's place. */
#define GASNETL_DEFINE(name, n, way, first_type, own, category, source, nbytes, dest)                                  \
    static inline int gasnet_AM##name##n(first_type first, gasnet_handler_t handler own GASNETL_P##n) {                \
        const gasnet_handlerarg_t args[] = { GASNETL_A##n };                                                           \
        const struct gasnetl_message message = { category, handler, source, nbytes, dest, n, args };                   \
        return gasnetl_##way(first, &message);                                                                         \
    }

#define GASNETL_NOTHING
#define GASNETL_SOURCE , const void *source_addr, size_t nbytes
#define GASNETL_SOURCE_DEST , const void *source_addr, size_t nbytes, void *dest_addr

#define GASNETL_WAY(n, name, way, first)                                                                               \
    GASNETL_DEFINE(name##Short, n, way, first, GASNETL_NOTHING, 0, NULL, 0, NULL)                                      \
    GASNETL_DEFINE(name##Medium, n, way, first, GASNETL_SOURCE, 1, source_addr, nbytes, NULL)                          \
    GASNETL_DEFINE(name##Long, n, way, first, GASNETL_SOURCE_DEST, 2, source_addr, nbytes, dest_addr)

#define GASNETL_ALL(n)                                                                                                 \
    GASNETL_WAY(n, Request, request, gasnet_node_t)                                                                    \
    GASNETL_DEFINE(RequestLongAsync, n, request, gasnet_node_t, GASNETL_SOURCE_DEST, 2, source_addr, nbytes,           \
                   dest_addr)                                                                                          \
    GASNETL_WAY(n, Reply, reply, gasnet_token_t)

GASNETL_ALL(0)
GASNETL_ALL(1)
GASNETL_ALL(2)
GASNETL_ALL(3)
GASNETL_ALL(4)
GASNETL_ALL(5)
GASNETL_ALL(6)
GASNETL_ALL(7)
GASNETL_ALL(8)
GASNETL_ALL(9)
GASNETL_ALL(10)
GASNETL_ALL(11)
GASNETL_ALL(12)
GASNETL_ALL(13)
GASNETL_ALL(14)
GASNETL_ALL(15)
GASNETL_ALL(16)

#endif
