#include "progress.h"

#include <time.h>
#include <unistd.h>

#include "errors.h"
#include "job.h"
#include "words.h"

enum { SENDER_AT = 16 }; /* where the sender stands in a message (docs/FORMATS.md) */

enum {
    LOOK = 1000,      /* microseconds that a look for datagrams counts at most */
    PATIENCE = 20000, /* microseconds for which a look for what is due waits while datagrams come */
    TICKS = 64,       /* the datagrams that one round sends at most */
    SPIN = 400,       /* the empty looks before a call that waits sleeps, where each node has a processor */
    POLL_EACH = 32,   /* requests between two polls */
    POLL_MOST = 64,
    ASK_EACH = 256,        /* polls in which nothing came, between two questions about all transfers */
    SLEEP = 100000,        /* microseconds that it sleeps at most */
    SLEEP_THREADED = 5000, /* the same where another thread may see what it waits for */
    SLEEP_ASKING = 1000    /* the same where the endpoint is to be asked again */
};

uint64_t gasnetl_clock(void) {
    struct timespec time;
    clock_gettime(CLOCK_MONOTONIC, &time);
    return (uint64_t)time.tv_sec * 1000000 + (uint64_t)time.tv_nsec / 1000;
}

/* ---- The endpoint's time. What went by while this node didn't look for answers doesn't count, or all that is out
 * would be late as it comes back. */

void gasnetl_read_clock(struct gasnetl_job *job) {
    struct gasnetl_progress *progress = &job->progress;
    uint64_t now = gasnetl_clock(), passed = now - progress->now;
    progress->now = now;
    progress->elapsed += passed < LOOK ? passed : LOOK;
    progress->time = progress->elapsed / 1000;
    gasnetl_progress_thread_called(&job->thread);
}

void gasnetl_progress_start(struct gasnetl_job *job) {
    struct gasnetl_progress *progress = &job->progress;
    progress->now = gasnetl_clock();
    progress->next_tick = UINT64_MAX;
    long processors = sysconf(_SC_NPROCESSORS_ONLN);
    unsigned neighbours = job->start.neighbours ? job->start.neighbours : job->nodes;
    progress->credits = job->config.credits;
    atomic_init(&progress->wait_mode, GASNET_WAIT_SPINBLOCK);
    progress->spin = SPIN;
    if (job->config.spin >= 0)
        progress->spin = (unsigned)job->config.spin;
    else if (processors < 1 || neighbours > (unsigned long)processors)
        progress->spin = 1;
}

/* ---- What is sent. */

static void send_told(struct gasnetl_job *job, const gasnet_c_told *told) {
    if (told->len)
        gasnetl_network_send(&job->network, told->to, gasnetl_network_room(&job->network), told->len);
}

/* A new request is out. */
static void request_went_out(struct gasnetl_job *job, const gasnet_c_told *told, enum gasnetl_server server) {
    struct gasnetl_progress *progress = &job->progress;
    gasnetl_peer_asked(job, told->to);
    if (!progress->out++)
        progress->next_tick = 0;
    gasnetl_recovery_sent(job, told->to, told->slot, server);
    send_told(job, told);
}

void gasnetl_client_asked(struct gasnetl_job *job, const gasnet_c_told *told) {
    request_went_out(job, told, GASNETL_BY_CLIENT);
}

bool gasnetl_library_goes(struct gasnetl_peer *peer) {
    if (!peer->asking)
        return true;
    peer->library_goes = !peer->library_goes;
    return peer->library_goes;
}

static bool tick_once(struct gasnetl_job *job) {
    gasnet_c_told told =
        gasnet_c_tick(&job->node, job->progress.time, gasnetl_network_room(&job->network), GASNET_C_ROOM);
    gasnetl_told(job, &told);
    return told.code != GASNET_C_NOTHING;
}

/* Sends what waits to be sent to a node. Of the two kinds the first one to have the credit is the other one each time.
 */
static void feed(struct gasnetl_job *job, uint16_t to) {
    if (gasnetl_packs_go_first(&job->packs, to))
        gasnetl_packs_feed(job, to);
    gasnetl_send_chunks(job, to);
    gasnetl_transfers_feed(job, to);
    gasnetl_packs_feed(job, to);
}

static void request_came_back(struct gasnetl_job *job, const gasnet_c_told *told) {
    struct gasnetl_progress *progress = &job->progress;
    job->peers.of[told->to].out--;
    progress->out--;
    gasnetl_recovery_answered(job, told->to, told->slot);
    gasnetl_chunk_back(job, told->to, told->slot);
    gasnetl_atomic_back(job, told->to, told->slot);
    gasnetl_pack_back(job, told->to, told->slot);
    if (progress->has_notifications)
        tick_once(job);
    feed(job, told->to);
}

/* Nothing is due. A notification that is due had no credit, or there is none. */
static void nothing_due(struct gasnetl_progress *progress) {
    if (progress->out < progress->credits)
        progress->has_notifications = false;
}

void gasnetl_told(struct gasnetl_job *job, const gasnet_c_told *told) {
    switch (told->code) {
    case GASNET_C_NOTIFIED:
        job->progress.has_notifications = true;
        send_told(job, told);
        break;
    case GASNET_C_RETRANSMISSION:
        job->progress.resent++;
        send_told(job, told);
        break;
    case GASNET_C_RAN:
    case GASNET_C_DUPLICATE:
        send_told(job, told);
        break;
    case GASNET_C_RETURNED:
        request_came_back(job, told);
        break;
    case GASNET_C_CHUNK:
        gasnetl_chunk_out(job, told->to, told->slot);
        request_went_out(job, told, GASNETL_BY_LIBRARY);
        break;
    case GASNET_C_ACCEPTED:
    case GASNET_C_NOTIFICATION:
        request_went_out(job, told, GASNETL_BY_LIBRARY);
        break;
    case GASNET_C_NOTHING:
        nothing_due(&job->progress);
        break;
    case GASNET_C_DEAD:
        gasnetl_stop(GASNETL_BROKEN, "the endpoint is gone");
    default: /* refused, stale, late: nothing happened */
        break;
    }
}

void gasnetl_send_chunks(struct gasnetl_job *job, uint16_t to) {
    struct gasnetl_peer *peer = &job->peers.of[to];
    while (gasnetl_has_chunk(&job->transfers, to) && peer->out < job->progress.credits && gasnetl_library_goes(peer))
        if (!tick_once(job))
            break;
}

void gasnetl_tick(struct gasnetl_job *job) {
    for (int sent = 0; sent < TICKS && tick_once(job); sent++)
        continue;
}

/* The endpoint sends again by itself what has no answer for long: the last resort. */
static void last_resort(struct gasnetl_job *job) {
    struct gasnetl_progress *progress = &job->progress;
    if (!progress->next_tick)
        progress->next_tick = gasnet_c_next_due(&job->node);
    if (progress->time < progress->next_tick)
        return;
    gasnetl_tick(job);
    progress->next_tick = 0;
}

/* Sends the notifications of the barrier that are due, and, where what came is taken, what is to go again. */
static void send_due(struct gasnetl_job *job, bool may_look) {
    if (job->progress.has_notifications)
        gasnetl_tick(job);
    if (!may_look || !job->progress.out)
        return;
    gasnetl_recovery_look(job);
    last_resort(job);
}

/* ---- What comes. */

/* Delivers what runs no handler of the client's. */
static void deliver_quietly(struct gasnetl_job *job, const uint8_t *bytes, size_t length) {
    gasnet_c_told told = gasnet_c_deliver(&job->node, job->progress.time, bytes, length, &gasnetl_no_run.reply,
                                          gasnetl_network_room(&job->network), GASNET_C_ROOM);
    gasnetl_told(job, &told);
}

/* Delivers what is for a handler that the endpoint serves. */
static void serve(struct gasnetl_job *job, uint32_t handler, const uint8_t *bytes, size_t length) {
    gasnet_c_told told = gasnet_c_serve(&job->node, job->progress.time, bytes, length,
                                        gasnetl_network_room(&job->network), GASNET_C_ROOM);
    if (handler == GASNET_C_COLLECTIVE_HANDLER && told.code == GASNET_C_RAN)
        job->collectives.heard = true;
    gasnetl_told(job, &told);
}

/* Whether the endpoint serves the handler of this index: the client has none there. */
static bool is_served(const struct gasnetl_job *job, uint32_t handler) {
    if (handler == GASNET_C_COLLECTIVE_HANDLER)
        return job->collectives.served;
    return job->atomics.served && gasnetl_is_atomic((int)handler);
}

static void deliver_message(struct gasnetl_job *job, const uint8_t *bytes, size_t length) {
    const gasnet_c_coming coming = gasnet_c_peek(&job->node, bytes, length);
    if (is_served(job, coming.handler))
        serve(job, coming.handler, bytes, length);
    else if (!coming.runs)
        deliver_quietly(job, bytes, length);
    else if (gasnetl_is_for_packs(job, (int)coming.handler))
        gasnetl_pack_take(job, &coming, bytes, length);
    else if (job->progress.keeps)
        gasnetl_keep(&job->kept, bytes, length);
    else
        gasnetl_message_take(job, &coming, bytes, length);
}

/* Whether a message is of this job, and of the node whose address it has. */
static bool is_of(const struct gasnetl_job *job, uint16_t from, const uint8_t *bytes, size_t length) {
    return gasnetl_control_is_of_job(&job->control, bytes, length) && length >= SENDER_AT + 2 &&
           gasnetl_word_read(bytes + SENDER_AT, 2) == from;
}

/* Others' messages are of no use, and nor are those that come before this node may take any: these come again. */
static void take_datagram(struct gasnetl_job *job, uint16_t from, const uint8_t *bytes, size_t length) {
    if (gasnetl_control_is(bytes, length)) {
        gasnetl_control_take(job, from, bytes, length);
    } else if ((job->attached || job->control.is_meeting) && is_of(job, from, bytes, length)) {
        gasnetl_peer_heard(job, from);
        deliver_message(job, bytes, length);
    }
}

/* Takes up to `most` of the datagrams that wait for the client. How many it took. */
static int take_kept(struct gasnetl_job *job, int most) {
    const uint8_t *bytes;
    size_t length;
    int took = 0;
    while (took < most && (bytes = gasnetl_kept_take(&job->kept, &length))) {
        deliver_message(job, bytes, length);
        took++;
    }
    return took;
}

/* Asks the endpoint again about transfers that seemed to be complete, and about all of them now and then where nothing
 * comes. Whether one of them is complete. */
static bool ask_about_transfers(struct gasnetl_job *job, bool came) {
    if (job->transfers.asks_again != GASNETL_NONE && gasnetl_transfers_ask_again(job))
        return true;
    return !came && ++job->progress.idle % ASK_EACH == 0 && gasnetl_transfers_ask_all(job);
}

/* The client closed the socket. Or this process is a child that it forked in a handler, and that went back into the
 * call which ran the handler. */
static _Noreturn void stop_without_socket(struct gasnetl_job *job) {
    if (!job->is_child)
        gasnetl_stop_lost();
    gasnetl_stop(GASNETL_MISUSE, "a child that was forked within a handler returns from it, but isn't a node");
}

bool gasnetl_poll(struct gasnetl_job *job, int most) {
    struct gasnetl_progress *progress = &job->progress;
    const uint8_t *bytes = NULL;
    int came = 0;
    size_t length;
    uint16_t from;
    gasnetl_read_clock(job);
    if (atomic_load_explicit(&job->stacks.asked, memory_order_relaxed) != gasnetl_thread.stack.told)
        gasnetl_stacks_tell(job);
    progress->since_poll = 0;
    if (!progress->keeps)
        gasnetl_progress_thread_polled(&job->thread, progress->now);
    if (job->kept.count && job->attached && !progress->keeps)
        came = take_kept(job, most);
    while (job->nodes > 1 && (came < most || gasnetl_network_has_more(&job->network)) &&
           (bytes = gasnetl_network_receive(&job->network, &length, &from))) {
        take_datagram(job, from, bytes, length);
        came++;
    }
    if (job->attached && !job->ender)
        gasnetl_collectives_advance(job);
    if (job->network.is_lost && !job->ender)
        stop_without_socket(job);
    /* What came is taken before anything goes again; but whoever sends without end doesn't hold that up. */
    if (!bytes)
        progress->last_empty = progress->elapsed;
    if (job->attached) {
        came += ask_about_transfers(job, came);
        send_due(job, !bytes || progress->elapsed - progress->last_empty >= PATIENCE);
    }
    gasnetl_network_flush(&job->network);
    gasnetl_peers_look(job);
    if (came)
        gasnetl_wake(&job->turns);
    return came;
}

void gasnetl_request_begins(struct gasnetl_job *job) {
    if (++job->progress.since_poll >= POLL_EACH)
        gasnetl_poll(job, POLL_MOST);
    else
        gasnetl_read_clock(job);
}

/* How long a call that waits may sleep, in microseconds: until a request is due. */
static uint64_t sleep_time(const struct gasnetl_job *job) {
    const struct gasnetl_progress *progress = &job->progress;
    uint64_t most = job->turns.threaded ? SLEEP_THREADED : SLEEP, due = job->recovery.next_look;
    if (job->transfers.asks_again != GASNETL_NONE)
        most = SLEEP_ASKING;
    if (!progress->out || due >= progress->now + most)
        return most;
    return due > progress->now ? due - progress->now : 0;
}

/* Whether the layer chooses when a call that waits sleeps: the client didn't, and nor did GASNET_SPIN. */
static bool has_choice(const struct gasnetl_job *job) {
    return job->config.spin < 0 &&
           atomic_load_explicit(&job->progress.wait_mode, memory_order_relaxed) == GASNET_WAIT_SPINBLOCK;
}

/* Whether a call that waits sleeps behind its `turn`-th empty look. */
static bool is_to_sleep(const struct gasnetl_job *job, unsigned turn) {
    const struct gasnetl_progress *progress = &job->progress;
    int mode = atomic_load_explicit(&progress->wait_mode, memory_order_relaxed);
    if (has_choice(job))
        return gasnetl_patience_is_over(&gasnetl_thread.patience, turn, progress->spin, progress->now);
    return mode == GASNET_WAIT_BLOCK || (mode == GASNET_WAIT_SPINBLOCK && turn >= progress->spin);
}

void gasnetl_wait(struct gasnetl_job *job, unsigned *turn) {
    const struct gasnetl_progress *progress = &job->progress;
    if (gasnetl_poll(job, 1)) {
        if (*turn && has_choice(job))
            gasnetl_patience_came(&gasnetl_thread.patience, *turn, progress->now);
        *turn = 0;
        return;
    }
    ++*turn;
    if (!gasnetl_thread.stack.since)
        gasnetl_thread.stack.since = progress->now;
    bool sleeps = is_to_sleep(job, *turn);
    if (sleeps && gasnetl_transfers_ask_all(job))
        gasnetl_wake(&job->turns);
    else if (sleeps)
        gasnetl_sleep(&job->turns, job->network.socket, sleep_time(job));
    else if (gasnetl_is_wanted(&job->turns))
        gasnetl_sleep(&job->turns, job->network.socket, 0);
}
