/* What a process knows: all that this library keeps. ComEx's calls have no parameter for it, so one value of it exists.
 *
 * One thread of the program makes ComEx's calls. Handlers run on it, and on the watch (watch.h). */
#ifndef COMEXG_STATE_H
#define COMEXG_STATE_H

#define GASNET_PAR 1
#include <comex.h>
#include <gasnet.h>
#include <mpi.h>
#include <stdbool.h>
#include <stdint.h>

#include "heap.h"

struct comexg_state {
    bool is_attached, is_started;
    int me, size;
    MPI_Comm world;
    gasnet_seginfo_t segments[GASNET_MAXNODES];
    struct caf_heap heap; /* what is free of the local segment */
    gasnet_hsl_t lock;    /* of what handlers change: memory that is added to, words, and mutexes */
};

extern struct comexg_state comexg_state;

/* The handlers of the messages between processes. */
enum {
    COMEXG_ADD_ROWS = 128,
    COMEXG_ADD_PLACES,
    COMEXG_ADDED,
    COMEXG_ADD_ROOM,
    COMEXG_ROOM_ADDED,
    COMEXG_WORD,
    COMEXG_WORD_DONE,
    COMEXG_LOCK,
    COMEXG_UNLOCK,
    COMEXG_GRANTED,
    COMEXG_UNLOCKED
};

/* The two halves of a number that goes as two arguments, and the number again. */
static inline int32_t comexg_low(uint64_t value) { return (int32_t)(uint32_t)value; }
static inline int32_t comexg_high(uint64_t value) { return (int32_t)(uint32_t)(value >> 32); }
static inline uint64_t comexg_join(int32_t low, int32_t high) {
    return (uint64_t)(uint32_t)low | (uint64_t)(uint32_t)high << 32;
}
static inline uint64_t comexg_address(const volatile void *at) { return (uint64_t)(uintptr_t)at; }

/* The node that sent the message that is handled. */
int comexg_sender(gasnet_token_t token);

/* Says on standard error what is wrong with a call, as printf does, and ends all processes with status 1: by
 * gasnet_exit, which handlers may call, on whatever thread they run. MPI's own end is for the thread that calls MPI. */
_Noreturn void comexg_die(const char *format, ...) __attribute__((format(printf, 1, 2)));

#endif
