/* What an image knows: all that this library keeps. The ABI's calls have no parameter for it, so one value of it
 * exists. */
#ifndef CAF_STATE_H
#define CAF_STATE_H

#include <stdbool.h>
#include <stddef.h>
#include <stdint.h>

#include "abi.h"
#include "gasnet.h"
#include "heap.h"
#include "team.h"

enum caf_condition { CAF_RUNNING, CAF_STOPPED, CAF_FAILED };

/* The hull of the puts to an image that may be under way. */
struct caf_window {
    uintptr_t low, high;
    uint32_t open; /* messages whose answer is due */
    bool has_puts; /* GASNet's own implicit puts */
};

/* What is known of an image. */
struct caf_peer {
    enum caf_condition condition, told; /* told holds as soon as `due` of its messages have come */
    uint32_t sent, came, due;
    uint32_t ticks, used; /* its sync images with this one: how many came, and how many were used */
    struct caf_window puts;
};

struct caf_state {
    bool is_started;
    bool has_ended;   /* this image told that it stopped or failed */
    bool is_stopping; /* STOP was executed: its code is the process's */
    int me, images;   /* this node, from 0, and how many there are */
    int gone;         /* how many others stopped or failed */
    gasnet_seginfo_t segments[GASNET_MAXNODES];
    struct caf_peer peers[GASNET_MAXNODES];
    struct caf_heap heap;
    struct caf_team *team;       /* the current one */
    struct caf_team *teams;      /* all that are known */
    struct caf_token *tokens;    /* all that live */
    struct caf_token *unsettled; /* coarrays whose bounds aren't known before the next sync all */
    bool is_allocating;          /* an allocate with stat= isn't over: the next sync all is its last part */
    const char *call;            /* the collective that was called last */
    bool is_proved; /* GASNET_CAF_PROVED is 1: collectives of all images are the endpoint's, where types allow */
    uint64_t seed;  /* the same on all images */
    uint64_t seeds; /* the calls of random_init */
};

extern struct caf_state caf_state;

/* The handlers of the messages between images. */
enum {
    CAF_PUT = 128,
    CAF_PUT_DONE,
    CAF_GET,
    CAF_GET_DONE,
    CAF_STEP,
    CAF_STEP_DONE,
    CAF_MAKE,
    CAF_MAKE_DONE,
    CAF_TICK,
    CAF_ROUND,
    CAF_MEET,
    CAF_MAIL,
    CAF_PLACE,
    CAF_BEGAN,
    CAF_CONDITION,
    CAF_ERROR
};

void caf_put_handler(gasnet_token_t from, void *bytes, size_t length);
void caf_put_done_handler(gasnet_token_t from);
void caf_get_handler(gasnet_token_t from, void *bytes, size_t length, int32_t low, int32_t high, int32_t place_low,
                     int32_t place_high);
void caf_get_done_handler(gasnet_token_t from, void *bytes, size_t length, int32_t low, int32_t high, int32_t place_low,
                          int32_t place_high);
void caf_step_handler(gasnet_token_t from, void *bytes, size_t length);
void caf_step_done_handler(gasnet_token_t from, int32_t low, int32_t high, int32_t old_low, int32_t old_high);
void caf_make_handler(gasnet_token_t from, void *bytes, size_t length);
void caf_make_done_handler(gasnet_token_t from, int32_t low, int32_t high, int32_t at_low, int32_t at_high);
void caf_tick_handler(gasnet_token_t from);
void caf_round_handler(gasnet_token_t from, int32_t low, int32_t high, int32_t round, int32_t sequence);
void caf_meet_handler(gasnet_token_t from, int32_t low, int32_t high, int32_t meeting, int32_t first_low,
                      int32_t first_high, int32_t second_low, int32_t second_high);
void caf_mail_handler(gasnet_token_t from, void *bytes, size_t nbytes, int32_t low, int32_t high, int32_t sequence,
                      int32_t step, int32_t length_low, int32_t length_high, int32_t place, int32_t total);
void caf_place_handler(gasnet_token_t from, int32_t low, int32_t high, int32_t sequence, int32_t step,
                       int32_t length_low, int32_t length_high, int32_t place_low, int32_t place_high);
void caf_error_handler(gasnet_token_t from);
void caf_began_handler(gasnet_token_t from, void *bytes, size_t length);
void caf_condition_handler(gasnet_token_t from, int32_t condition, int32_t due);

/* The two halves of a number that goes as two arguments, and the number again. */
static inline int32_t caf_low(uint64_t value) { return (int32_t)(uint32_t)value; }
static inline int32_t caf_high(uint64_t value) { return (int32_t)(uint32_t)(value >> 32); }
static inline uint64_t caf_join(int32_t low, int32_t high) {
    return (uint64_t)(uint32_t)low | (uint64_t)(uint32_t)high << 32;
}
static inline uint64_t caf_address(const volatile void *at) { return (uint64_t)(uintptr_t)at; }

/* The node that sent the message that is handled. */
int caf_sender(gasnet_token_t token);

/* The same, of a message that is counted: the sender counted it by caf_counted. */
int caf_sender_counted(gasnet_token_t token);

/* Counts a message that goes to a node, and answers the node. What a node tells of its end waits for those that it
 * counted. */
gasnet_node_t caf_counted(int node);

/* Starts the images, at the first call of any kind. */
void caf_start(void);

/* Tells all others that this image stopped or failed, and waits until none of them runs. It serves them meanwhile. */
void caf_leave(enum caf_condition condition);

#endif
