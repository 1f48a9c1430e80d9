/* How a handler is called: by a type with exactly as many arguments as its message has. */
#include "messages.h"

#define A(i) args[i]
#define A1 A(0)
#define A2 A1, A(1)
#define A3 A2, A(2)
#define A4 A3, A(3)
#define A5 A4, A(4)
#define A6 A5, A(5)
#define A7 A6, A(6)
#define A8 A7, A(7)
#define A9 A8, A(8)
#define A10 A9, A(9)
#define A11 A10, A(10)
#define A12 A11, A(11)
#define A13 A12, A(12)
#define A14 A13, A(13)
#define A15 A14, A(14)
#define A16 A15, A(15)
#define T1 gasnet_handlerarg_t
#define T2 T1, T1
#define T3 T2, T1
#define T4 T3, T1
#define T5 T4, T1
#define T6 T5, T1
#define T7 T6, T1
#define T8 T7, T1
#define T9 T8, T1
#define T10 T9, T1
#define T11 T10, T1
#define T12 T11, T1
#define T13 T12, T1
#define T14 T13, T1
#define T15 T14, T1
#define T16 T15, T1

/* Each with the first arguments of its own in front: a token, or a token and a payload. */
#define CASE(n)                                                                                                        \
    case n:                                                                                                            \
        ((void (*)(TYPES, T##n))handler)(VALUES, A##n);                                                                \
        break;
/* clang-format off */
#define CASES                                                                                  \
    CASE(1) CASE(2) CASE(3) CASE(4) CASE(5) CASE(6) CASE(7) CASE(8)                            \
    CASE(9) CASE(10) CASE(11) CASE(12) CASE(13) CASE(14) CASE(15) CASE(16)
/* clang-format on */

#define TYPES gasnet_token_t
#define VALUES token
static void call_short(gasnetl_handler *handler, gasnet_token_t token, const struct gasnetl_run *run) {
    const gasnet_handlerarg_t *args = run->args;
    switch (run->count) {
    case 0:
        ((void (*)(TYPES))handler)(VALUES);
        break;
        CASES
    }
}
#undef TYPES
#undef VALUES

#define TYPES gasnet_token_t, void *, size_t
#define VALUES token, run->payload, run->nbytes
static void call_with_payload(gasnetl_handler *handler, gasnet_token_t token, const struct gasnetl_run *run) {
    const gasnet_handlerarg_t *args = run->args;
    switch (run->count) {
    case 0:
        ((void (*)(TYPES))handler)(VALUES);
        break;
        CASES
    }
}

void gasnetl_call(gasnetl_handler *handler, gasnet_token_t token, const struct gasnetl_run *run) {
    if (run->category)
        call_with_payload(handler, token, run);
    else
        call_short(handler, token, run);
}
