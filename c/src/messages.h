/* Active messages of the client: its handlers, and how they run. */
#ifndef GASNETL_MESSAGES_INTERNAL_H
#define GASNETL_MESSAGES_INTERNAL_H

#include <stdalign.h>
#include <stdatomic.h>
#include <stdbool.h>
#include <stddef.h>
#include <stdint.h>

#include "gasnet.h"
#include "gasnet_c.h"

struct gasnetl_job;

enum { GASNETL_ARGS = 16, GASNETL_FIRST_INDEX = 128, GASNETL_INDEXES = 256 };

/* What a handler is handed: the message's sender, and room for its reply. */
struct gasnetl_token {
    gasnet_node_t from;
    bool may_reply, has_replied;
    gasnet_c_run done; /* what it does: its reply, whose payload stands in gasnetl_messages.reply */
    gasnet_handlerarg_t args[GASNETL_ARGS];
};

typedef void gasnetl_handler();

struct gasnetl_messages {
    gasnetl_handler *handlers[GASNETL_INDEXES];
    bool is_chosen[GASNETL_INDEXES]; /* the index was chosen for an entry that takes any */
    atomic_bool runs_handler; /* stored by the thread that has the turn, behind all that it did before the handler */
    /* Handlers run one at a time, so one of each buffer is enough. */
    alignas(16) uint8_t reply[GASNET_C_PAYLOAD];  /* the payload of the reply that a handler asked for */
    alignas(16) uint8_t medium[GASNET_C_PAYLOAD]; /* the payload of a Medium, as its handler sees it */
    uint8_t left[GASNET_C_PAYLOAD];               /* what stands at a Long's place when its handlers are done */
    uint8_t reply_left[GASNET_C_PAYLOAD];
};

/* A run of a handler. */
struct gasnetl_run {
    gasnet_handler_t handler;
    unsigned category; /* 0: Short; 1: Medium; 2: Long */
    void *payload;
    size_t nbytes;
    unsigned count;
    const gasnet_handlerarg_t *args;
};

/* What a handler did that didn't run. */
extern const gasnet_c_run gasnetl_no_run;

/* Registers the client's table, and writes the indexes that it chose into it. GASNET_OK, or the code of what is wrong.
 */
int gasnetl_register(struct gasnetl_messages *messages, gasnet_handlerentry_t *table, int entries);

/* Why a handler of the client's has this index, and what to do where it shouldn't: the end of a line. */
const char *gasnetl_who_chose(const struct gasnetl_messages *messages, int index);

/* Takes a datagram whose delivery runs a handler of the client's, as `coming` tells: runs it, and delivers the datagram
 * with what it did. */
void gasnetl_message_take(struct gasnetl_job *job, const gasnet_c_coming *coming, const uint8_t *bytes, size_t length);

/* Calls a handler with as many arguments as the run has. */
void gasnetl_call(gasnetl_handler *handler, gasnet_token_t token, const struct gasnetl_run *run);

#endif
