#include <inttypes.h>
#include <string.h>

#include "errors.h"
#include "job.h"

enum { SHORT = 0, MEDIUM = 1, LONG = 2, NONE = 3, POLL_MOST = 64 };

/* The endpoint takes no null pointer, not even to nothing. */
static const gasnet_handlerarg_t no_args[1];
static const uint8_t no_bytes[1];

#define NOTHING                                                                                                        \
    { no_bytes, 0 }
const gasnet_c_run gasnetl_no_run = { { { no_args, 0 }, NOTHING, 0, NONE, 0 }, NOTHING };

size_t gasnet_AMMaxArgs(void) { return GASNETL_ARGS; }

/* Longer messages are taken, up to GASNET_C_PAYLOAD, but IP cuts them. */
size_t gasnet_AMMaxMedium(void) {
    return gasnetl_job.initialised ? atomic_load_explicit(&gasnetl_job.control.message, memory_order_relaxed)
                                   : GASNET_C_PAYLOAD;
}
size_t gasnet_AMMaxLongRequest(void) { return gasnet_AMMaxMedium(); }
size_t gasnet_AMMaxLongReply(void) { return gasnet_AMMaxMedium(); }

/* ---- The table. */

/* Whether the library serves this index itself, as long as no handler of the client's has it. */
static bool is_served(int index) {
    return gasnetl_is_atomic(index) || index == GASNET_C_COLLECTIVE_HANDLER || index == GASNETL_PACK_HANDLER;
}

/* The index of an entry that takes any: the highest free one, those that the library serves last. 0 where none is
 * free. */
static gasnet_handler_t free_index(const struct gasnetl_messages *messages) {
    for (int served = 0; served < 2; served++)
        for (int index = GASNETL_INDEXES - 1; index >= GASNETL_FIRST_INDEX; index--)
            if (is_served(index) == served && !messages->handlers[index])
                return (gasnet_handler_t)index;
    return 0;
}

const char *gasnetl_who_chose(const struct gasnetl_messages *messages, int index) {
    if (messages->is_chosen[index])
        return "gasnet_attach gave it to an entry of index 0, as all others were taken: register fewer handlers";
    return "the client's table names it: give that handler another index";
}

static int register_entry(struct gasnetl_messages *messages, gasnet_handlerentry_t *entry, bool any) {
    if (any && !(entry->index = free_index(messages)))
        return gasnetl_refuse(GASNET_ERR_RESOURCE, "gasnet_attach: the indexes from 128 to 255 are used up");
    if (entry->index < GASNETL_FIRST_INDEX)
        return gasnetl_refuse(GASNET_ERR_BAD_ARG,
                              "gasnet_attach: index %u isn't a client's: use 128 to 255, or 0 for any", entry->index);
    if (messages->handlers[entry->index])
        return gasnetl_refuse(GASNET_ERR_BAD_ARG, "gasnet_attach: index %u has two handlers", entry->index);
    if (!entry->fnptr)
        return gasnetl_refuse(GASNET_ERR_BAD_ARG, "gasnet_attach: index %u has no function", entry->index);
    messages->handlers[entry->index] = entry->fnptr;
    messages->is_chosen[entry->index] = any;
    return GASNET_OK;
}

int gasnetl_register(struct gasnetl_messages *messages, gasnet_handlerentry_t *table, int entries) {
    if (entries < 0 || (entries && !table))
        return gasnetl_refuse(GASNET_ERR_BAD_ARG, "gasnet_attach: there is no table of handlers");
    memset(messages->handlers, 0, sizeof messages->handlers);
    for (int any = 0; any < 2; any++)
        for (int i = 0; i < entries; i++) {
            if ((table[i].index == 0) != any)
                continue;
            int code = register_entry(messages, &table[i], any);
            if (code != GASNET_OK)
                return code;
        }
    return GASNET_OK;
}

/* ---- A handler runs. */

static void run_handler(struct gasnetl_job *job, gasnet_token_t token, const struct gasnetl_run *run) {
    gasnetl_handler *handler = job->messages.handlers[run->handler];
    if (!handler)
        gasnetl_stop(GASNETL_MISUSE, "a message of node %u came for handler %u, which isn't registered here",
                     token->from, run->handler);
    gasnetl_thread.token = token;
    atomic_store_explicit(&job->messages.runs_handler, true, memory_order_release);
    gasnetl_call(handler, token, run);
    if (gasnetl_another_ends()) /* it had no turn left to wait for */
        gasnetl_stay_out(&job->turns);
    gasnetl_thread.token = NULL;
    atomic_store_explicit(&job->messages.runs_handler, false, memory_order_relaxed);
    if (gasnetl_thread.locks)
        gasnetl_stop(GASNETL_MISUSE, "handler %u returned while it held a handler-safe lock", run->handler);
}

static void token_start(gasnet_token_t token, gasnet_node_t from, bool may_reply) {
    token->from = from;
    token->may_reply = may_reply;
    token->has_replied = false;
    token->done = gasnetl_no_run;
}

int gasnet_AMGetMsgSource(gasnet_token_t token, gasnet_node_t *srcindex) {
    if (!token || token != gasnetl_thread.token || !srcindex)
        return gasnetl_refuse(GASNET_ERR_BAD_ARG, "gasnet_AMGetMsgSource: the token isn't that of the running handler");
    *srcindex = token->from;
    return GASNET_OK;
}

/* What stands at a Long's place when its handlers are done, where that isn't its payload, as a copy; else nothing. */
static gasnet_c_bytes what_is_left(const struct gasnetl_run *run, const uint8_t *payload, uint8_t *copy) {
    gasnet_c_bytes left = NOTHING;
    if (run->category != LONG || !memcmp(run->payload, payload, run->nbytes))
        return left;
    memcpy(copy, run->payload, run->nbytes);
    return (gasnet_c_bytes){ copy, run->nbytes };
}

/* ---- A message of another node. */

static void read_args(gasnet_handlerarg_t *args, const uint8_t *bytes, uint32_t count) {
    for (uint32_t i = 0; i < count; i++, bytes += 4)
        args[i] = (gasnet_handlerarg_t)((uint32_t)bytes[0] << 24 | (uint32_t)bytes[1] << 16 | (uint32_t)bytes[2] << 8 |
                                        bytes[3]);
}

/* The payload as the handler sees it: a Long's at its place, a Medium's in a buffer. Both are copies, since the handler
 * may change them, and the datagram is delivered as it came. The delivery stores nothing at a Long's place. */
static uint8_t *payload_for(struct gasnetl_job *job, const gasnet_c_coming *coming, const uint8_t *payload) {
    uint8_t *seen = coming->category == LONG ? job->segment.base + coming->place : job->messages.medium;
    memcpy(seen, payload, coming->payload_len);
    return seen;
}

/* The handler of a message that is about to be delivered runs. */
static void run_coming(struct gasnetl_job *job, gasnet_token_t token, const gasnet_c_coming *coming,
                       const uint8_t *bytes) {
    gasnet_handlerarg_t args[GASNETL_ARGS];
    const struct gasnetl_run run = { (gasnet_handler_t)coming->handler,
                                     coming->category,
                                     payload_for(job, coming, bytes + coming->payload_at),
                                     coming->payload_len,
                                     coming->count,
                                     args };
    read_args(args, bytes + coming->args_at, coming->count);
    run_handler(job, token, &run);
}

void gasnetl_message_take(struct gasnetl_job *job, const gasnet_c_coming *coming, const uint8_t *bytes, size_t length) {
    struct gasnetl_token token;
    if (job->ender) /* no handler runs any more */
        return;
    token_start(&token, (gasnet_node_t)coming->from, coming->runs == 1);
    run_coming(job, &token, coming, bytes);
    const gasnet_c_told told = gasnet_c_deliver(&job->node, job->progress.time, bytes, length, &token.done.reply,
                                                gasnetl_network_room(&job->network), GASNET_C_ROOM);
    gasnetl_told(job, &told);
    if (told.code != (coming->runs == 1 ? GASNET_C_RAN : GASNET_C_RETURNED))
        gasnetl_stop(GASNETL_BROKEN, "a delivery was answered %u where its handler ran", told.code);
}

/* ---- Replies. */

/* What is wrong with a message to a node, if anything is; else the offset of a Long's place. */
static int judge_message(const struct gasnetl_job *job, gasnet_node_t node, const struct gasnetl_message *message,
                         uint64_t *offset) {
    *offset = 0;
    if (node >= job->nodes)
        return gasnetl_refuse(GASNET_ERR_BAD_ARG, "a message to node %u: there are %u nodes", node, job->nodes);
    if (message->handler < GASNETL_FIRST_INDEX)
        return gasnetl_refuse(GASNET_ERR_BAD_ARG, "a message for handler %u: a client's are 128 to 255",
                              message->handler);
    if (message->nbytes > GASNET_C_PAYLOAD)
        return gasnetl_refuse(GASNET_ERR_BAD_ARG, "a message of %zu bytes: the most is %d", message->nbytes,
                              GASNET_C_PAYLOAD);
    if (message->nbytes && (!message->source || gasnetl_straddles(job, message->source, message->nbytes)))
        return gasnetl_refuse(GASNET_ERR_BAD_ARG,
                              "a message whose payload is at %p: that is NULL, or only in part in the local segment",
                              message->source);
    if (message->category == LONG && !gasnetl_far(job, node, message->dest, message->nbytes, offset))
        return gasnetl_refuse(GASNET_ERR_BAD_ARG, "a Long message to %p of node %u: that isn't in its segment",
                              message->dest, node);
    return GASNET_OK;
}

static void judge_reply(gasnet_token_t token) {
    if (!token || token != gasnetl_thread.token)
        gasnetl_stop(GASNETL_MISUSE, "gasnet_AMReply: the token isn't that of the running handler");
    if (gasnetl_thread.locks)
        gasnetl_stop(GASNETL_MISUSE, "gasnet_AMReply: the handler holds a handler-safe lock");
    if (!token->may_reply)
        gasnetl_stop(GASNETL_MISUSE, "gasnet_AMReply: the handler of a reply may not reply");
    if (token->has_replied)
        gasnetl_stop(GASNETL_MISUSE, "gasnet_AMReply: the handler replied already");
}

int gasnetl_reply(gasnet_token_t token, const struct gasnetl_message *message) {
    struct gasnetl_job *job = &gasnetl_job;
    uint64_t offset;
    judge_reply(token);
    int code = judge_message(job, token->from, message, &offset);
    if (code != GASNET_OK)
        return code;
    memcpy(token->args, message->args, message->count * sizeof *message->args);
    if (message->nbytes)
        memcpy(job->messages.reply, message->source, message->nbytes);
    token->has_replied = true;
    token->done.reply = (gasnet_c_reply){ { token->args, message->count },
                                          { job->messages.reply, message->nbytes },
                                          offset,
                                          (uint32_t)message->category,
                                          message->handler };
    return GASNET_OK;
}

/* ---- Requests. */

/* Whether a call that answers a code comes before gasnet_attach, or behind the end. Within a handler it is misuse. */
static bool is_out_of_turn(const struct gasnetl_job *job) {
    return !job->attached && !gasnetl_thread.token && !gasnetl_another_ends();
}

/* Makes the run of a message to the local node: its payload stands where the handler is to see it. */
static struct gasnetl_run run_here(struct gasnetl_job *job, gasnet_handler_t handler, uint32_t category,
                                   uint64_t offset, gasnet_c_bytes payload, gasnet_c_args args) {
    void *place = category == LONG ? job->segment.base + offset : job->messages.medium;
    memcpy(place, payload.at, payload.len);
    return (struct gasnetl_run){ handler, category, place, payload.len, (unsigned)args.len, args.at };
}

/* The handlers of a request to the local node run: its own, and then that of its reply. What they did is recorded. */
static void request_here(struct gasnetl_job *job, gasnet_c_ask *ask, const struct gasnetl_message *message) {
    struct gasnetl_messages *own = &job->messages;
    struct gasnetl_token token, reply_token;
    const gasnet_c_reply *reply = &token.done.reply;
    gasnet_c_bytes reply_left = NOTHING;
    uint8_t payload[GASNET_C_PAYLOAD];
    if (message->nbytes)
        memcpy(payload, message->source, message->nbytes); /* what the request had, whatever its handlers do */
    ask->payload = (gasnet_c_bytes){ payload, message->nbytes };
    token_start(&token, job->me, true);
    const struct gasnetl_run run = run_here(job, ask->handler, ask->category, ask->offset, ask->payload, ask->args);
    run_handler(job, &token, &run);
    if (token.has_replied) {
        token_start(&reply_token, job->me, false);
        const struct gasnetl_run back =
            run_here(job, reply->handler, reply->category, reply->offset, reply->payload, reply->args);
        run_handler(job, &reply_token, &back);
        reply_left = what_is_left(&back, own->reply, own->reply_left);
    }
    token.done.left = what_is_left(&run, payload, own->left);
    const gasnet_c_told told =
        gasnet_c_request_own(&job->node, job->progress.time, ask, &token.done, reply_left.at, reply_left.len);
    if (told.code != GASNET_C_RAN_HERE)
        gasnetl_stop(GASNETL_BROKEN, "a request to the local node was answered %u", told.code);
}

/* Asks, where the node's window has room. */
static gasnet_c_told ask_once(struct gasnetl_job *job, const gasnet_c_ask *ask) {
    if (!gasnetl_recovery_may_send(job, ask->to, GASNETL_BY_CLIENT, 0))
        return (gasnet_c_told){ .code = GASNET_C_NOT_YET };
    return gasnet_c_request(&job->node, job->progress.time, ask, gasnetl_network_room(&job->network), GASNET_C_ROOM);
}

/* A request to another node; it waits for a credit, and for room in the window. */
static void request_there(struct gasnetl_job *job, gasnet_c_ask *ask, const struct gasnetl_message *message) {
    unsigned turn = 0;
    if (message->nbytes && gasnetl_far(job, job->me, message->source, message->nbytes, &ask->source)) {
        ask->own = true;
        ask->source_len = message->nbytes;
    } else if (message->nbytes)
        ask->payload = (gasnet_c_bytes){ message->source, message->nbytes };
    gasnet_c_told told = ask_once(job, ask);
    if (told.code == GASNET_C_NOT_YET) {
        job->peers.of[ask->to].asking++;
        gasnetl_thread.stack.to = (uint16_t)(ask->to + 1);
        do {
            gasnetl_wait(job, &turn);
            told = ask_once(job, ask);
        } while (told.code == GASNET_C_NOT_YET);
        job->peers.of[ask->to].asking--;
    }
    if (told.code != GASNET_C_ACCEPTED)
        gasnetl_stop(GASNETL_BROKEN, "a request to node %u was answered %u", ask->to, told.code);
    gasnetl_client_asked(job, &told);
}

int gasnetl_request(gasnet_node_t node, const struct gasnetl_message *message) {
    if (is_out_of_turn(&gasnetl_job))
        return gasnetl_refuse(GASNET_ERR_NOT_INIT, "gasnet_AMRequest is called %s", gasnetl_out_of_turn());
    struct gasnetl_job *job = gasnetl_enter("gasnet_AMRequest");
    gasnet_c_ask ask = { .args = { message->args, message->count },
                         .payload = NOTHING,
                         .category = (uint32_t)message->category,
                         .to = node,
                         .handler = message->handler };
    int code = judge_message(job, node, message, &ask.offset);
    if (code == GASNET_OK) {
        gasnetl_request_begins(job);
        if (node == job->me)
            request_here(job, &ask, message);
        else
            request_there(job, &ask, message);
    }
    gasnetl_leave(job);
    return code;
}

/* ---- Polls. */

int gasnet_AMPoll(void) {
    if (is_out_of_turn(&gasnetl_job))
        return gasnetl_refuse(GASNET_ERR_NOT_INIT, "gasnet_AMPoll is called %s", gasnetl_out_of_turn());
    struct gasnetl_job *job = gasnetl_enter("gasnet_AMPoll");
    gasnetl_poll(job, POLL_MOST);
    gasnetl_leave(job);
    return GASNET_OK;
}

/* The turn is 0 the first time, and one more than that of gasnetl_wait behind it, so that the whole is one wait. */
void gasnetl_block(unsigned *turn) {
    const uint64_t since = *turn ? gasnetl_thread.stack.since : 0;
    unsigned empty = *turn ? *turn - 1 : 0;
    struct gasnetl_job *job = gasnetl_enter("GASNET_BLOCKUNTIL");
    gasnetl_thread.stack.since = since;
    gasnetl_wait(job, &empty);
    *turn = empty + 1;
    gasnetl_leave(job);
    pthread_testcancel();
}
