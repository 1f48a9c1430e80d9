#include "peers.h"

#include <stdio.h>

#include "errors.h"
#include "exit.h"
#include "job.h"
#include "words.h"

enum { LOOK = 500000, SILENT = 1000000, SECOND = 1000000 }; /* microseconds */
enum { REFUSALS = 2, MESSAGE_FRONT = 20 };                  /* looks in a row; bytes */

void gasnetl_peer_heard(struct gasnetl_job *job, uint16_t node) {
    struct gasnetl_peer *peer = &job->peers.of[node];
    peer->since = peer->heard = job->progress.now;
    peer->is_pinged = peer->is_refused = peer->is_doubted = false;
    peer->refusals = 0;
}

/* Whether these bytes are the front of a message of this node to that one, in this job (docs/FORMATS.md). */
static bool is_own_message(const struct gasnetl_job *job, uint16_t to, const uint8_t *bytes, size_t length) {
    return length >= MESSAGE_FRONT && gasnetl_control_is_of_job(&job->control, bytes, length) &&
           gasnetl_word_read(bytes + 16, 2) == job->me && gasnetl_word_read(bytes + 18, 2) == to;
}

void gasnetl_peer_refused(struct gasnetl_job *job, uint16_t to, const uint8_t *bytes, size_t length) {
    struct gasnetl_peer *peer = &job->peers.of[to];
    uint64_t asked = 0;
    if (!gasnetl_control_is_own(job, bytes, length, &asked) && !is_own_message(job, to, bytes, length))
        return;
    const bool is_ping = asked && asked <= peer->pinged; /* who saw one pass may say that it went at any time */
    peer->is_refused = true;
    if (is_ping && asked > peer->refused)
        peer->refused = asked;
    else if (!is_ping && !peer->is_pinged)
        peer->is_doubted = job->peers.has_doubts = true;
}

void gasnetl_peer_asked(struct gasnetl_job *job, uint16_t node) {
    struct gasnetl_peer *peer = &job->peers.of[node];
    if (!peer->out++ && !peer->is_pinged)
        peer->since = job->progress.now;
}

static void write_address(const struct gasnetl_job *job, uint16_t node, char *text, size_t room) {
    gasnetl_place_write(&job->network.places.of[node].address, text, room);
}

/* Ends the job, since a peer is gone. The client hears of it by SIGQUIT, as of a peer's exit. */
static _Noreturn void end_without(struct gasnetl_job *job, uint16_t node, const char *why) {
    char address[80];
    write_address(job, node, address, sizeof address);
    gasnetl_refuse(GASNETL_PEER_GONE, "node %u (%s) %s", node, address, why);
    gasnetl_raise_quit(job);
    gasnetl_end_all(job, GASNETL_PEER_GONE);
}

/* Counts the looks in a row of which a ping was refused, and nothing was heard since that went. */
static void check_refusals(struct gasnetl_job *job, uint16_t node) {
    struct gasnetl_peer *peer = &job->peers.of[node];
    bool is_refused = peer->refused && peer->refused >= job->peers.last_look && peer->heard < peer->refused;
    peer->refusals = is_refused ? peer->refusals + 1 : 0;
    if (peer->refusals >= REFUSALS)
        end_without(job, node, "is gone: its process ended without gasnet_exit, so the job ends");
}

static void ping_peer(struct gasnetl_job *job, uint16_t node) {
    struct gasnetl_peer *peer = &job->peers.of[node];
    peer->is_pinged = true;
    peer->is_doubted = false;
    peer->pinged = gasnetl_control_ping(job, node);
}

/* Asks the peers of which something was refused since the last look. */
static void ask_doubted(struct gasnetl_job *job) {
    job->peers.has_doubts = false;
    for (uint16_t node = 0; node < job->nodes; node++)
        if (job->peers.of[node].is_doubted)
            ping_peer(job, node);
}

static void check_silence(struct gasnetl_job *job, uint16_t node) {
    struct gasnetl_peer *peer = &job->peers.of[node];
    uint64_t now = job->progress.now, silent = now - peer->since;
    char why[120];
    if (silent < SILENT && !peer->is_refused)
        return;
    if (!peer->out && !peer->is_pinged)
        peer->since = now;
    else if (job->config.peer_timeout && silent > job->config.peer_timeout) {
        snprintf(why, sizeof why,
                 "didn't answer for %.1f s, so the job ends (GASNET_PEER_TIMEOUT is how long a node waits)",
                 (double)silent / SECOND);
        end_without(job, node, why);
    }
    ping_peer(job, node);
}

/* While this node didn't look, as one that is stopped or computes without a thread, no peer was silent. */
static void forgive_silence(struct gasnetl_job *job, uint64_t late) {
    for (uint16_t node = 0; node < job->nodes; node++) {
        struct gasnetl_peer *peer = &job->peers.of[node];
        uint64_t silent = job->progress.now - peer->since;
        peer->since += late < silent ? late : silent;
    }
}

void gasnetl_peers_look(struct gasnetl_job *job) {
    if (!job->attached || job->ender)
        return;
    if (job->peers.has_doubts)
        ask_doubted(job);
    if (job->progress.now < job->peers.next_look)
        return;
    const uint64_t late = job->progress.now - job->peers.next_look;
    job->peers.next_look = job->progress.now + LOOK;
    if (late > LOOK)
        forgive_silence(job, late);
    for (uint16_t node = 0; node < job->nodes; node++)
        if (node != job->me) {
            check_refusals(job, node);
            check_silence(job, node);
        }
    job->peers.last_look = job->progress.now;
}
