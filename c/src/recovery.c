#include "recovery.h"

#include <inttypes.h>
#include <stdio.h>
#include <string.h>

#include "job.h"

enum {
    REORDERING = 3,      /* how many answers of later requests say that one is lost (RFC 6675) */
    COLLAPSE = 8,        /* after how many probes without an answer the window collapses */
    EAGER = 6,           /* how many probes in a row loss may want */
    MOST_DOUBLINGS = 20, /* of a time-out */
    DELAY = 30,          /* microseconds by which a host's own work may lengthen a round trip */
    QUEUE = 250,         /* and by which a queue does, beside an eighth of the least one */
    OVERHEAD = 640,      /* what the system counts of a receive buffer for a datagram, beside its payload */
    UNHARMED = 128,      /* answers without a loss, behind which a chunk is doubled, at first */
    PUT_OFF = 8,         /* times as many, once a chunk that was doubled is lost; up to MOST_UNHARMED */
    MOST_UNHARMED = 1 << 16,
    CHUNK_DOUBLINGS = 4, /* from 512 bytes to GASNET_C_PAYLOAD */
    PARTS = 4            /* of a window, of which one may be an operation of the endpoint */
};

/* ---- Transmissions in order. */

static void append(struct gasnetl_path *path, struct gasnetl_sequence *sequence, uint8_t slot) {
    path->of[slot].before = sequence->last;
    path->of[slot].behind = GASNETL_NO_SLOT;
    if (sequence->last == GASNETL_NO_SLOT)
        sequence->first = slot;
    else
        path->of[sequence->last].behind = slot;
    sequence->last = slot;
    sequence->count++;
}

static void take_out(struct gasnetl_path *path, struct gasnetl_sequence *sequence, uint8_t slot) {
    const struct gasnetl_transmission *one = &path->of[slot];
    if (one->before == GASNETL_NO_SLOT)
        sequence->first = one->behind;
    else
        path->of[one->before].behind = one->behind;
    if (one->behind == GASNETL_NO_SLOT)
        sequence->last = one->before;
    else
        path->of[one->behind].before = one->before;
    sequence->count--;
}

static const struct gasnetl_sequence nothing = { GASNETL_NO_SLOT, GASNETL_NO_SLOT, 0 };

/* How many requests may be on the way to a peer at most: as many as it has credits, and room in its receive buffer. */
static unsigned most_to(const struct gasnetl_job *job, uint16_t to) {
    const struct gasnetl_way *way = &job->control.ways[to];
    uint64_t room = way->buffer / (way->chunk + OVERHEAD),
             most = room > GASNETL_WINDOW_LEAST ? room : GASNETL_WINDOW_LEAST;
    return most < job->progress.credits ? (unsigned)most : job->progress.credits;
}

void gasnetl_recovery_start(struct gasnetl_job *job) {
    struct gasnetl_recovery *recovery = &job->recovery;
    recovery->next_look = UINT64_MAX;
    for (uint16_t node = 0; node < job->nodes; node++) {
        struct gasnetl_path *path = &recovery->paths[node];
        *path = (struct gasnetl_path){ .wanted = UNHARMED, .lost = nothing };
        path->flights[GASNETL_BY_LIBRARY].sequence = path->flights[GASNETL_BY_CLIENT].sequence = nothing;
    }
}

void gasnetl_recovery_greeted(struct gasnetl_job *job, uint16_t node, uint64_t time) {
    struct gasnetl_path *path = &job->recovery.paths[node];
    for (int server = 0; server < GASNETL_SERVERS; server++)
        if (!path->flights[server].trip.is_measured)
            gasnetl_round_trip_measured(&path->flights[server].trip, time);
}

bool gasnetl_recovery_is_measured(const struct gasnetl_job *job, uint16_t node) {
    return job->recovery.paths[node].flights[GASNETL_BY_CLIENT].trip.is_measured;
}

void gasnetl_recovery_open(struct gasnetl_job *job) {
    for (uint16_t node = 0; node < job->nodes; node++)
        gasnetl_window_start(&job->recovery.paths[node].window, most_to(job, node));
}

/* ---- How long chunks are. */

static uint32_t doubled(uint32_t chunk, unsigned doublings) {
    uint64_t bytes = (uint64_t)chunk << doublings;
    return bytes < GASNET_C_PAYLOAD ? (uint32_t)bytes : GASNET_C_PAYLOAD;
}

uint32_t gasnetl_recovery_chunk(const struct gasnetl_job *job, uint16_t to) {
    return doubled(job->control.ways[to].chunk, job->recovery.paths[to].doublings);
}

/* Whether the peer's receive buffer has room for a window of chunks that are doubled so often. */
static bool has_room_for(const struct gasnetl_way *way, unsigned most, unsigned doublings) {
    uint64_t packets = UINT64_C(1) << doublings;
    return way->buffer / most >= doubled(way->chunk, doublings) + packets * OVERHEAD;
}

/* Whether round trips tell of no queue on the way: longer chunks would only stand in it. */
static bool has_no_queue(const struct gasnetl_round_trip *trip) {
    return gasnetl_round_trip_smoothed(trip) <= trip->least + trip->least / 8 + QUEUE;
}

/* An answer came. Where the window is as wide as it can be, so that credits alone hold the sender back, and nothing was
 * lost for long, chunks are doubled: then some packets of a chunk have one answer. */
static void grow_chunk(const struct gasnetl_way *way, struct gasnetl_path *path,
                       const struct gasnetl_round_trip *trip) {
    if (!path->window.most || path->window.size < path->window.most || path->doublings == CHUNK_DOUBLINGS ||
        way->chunk << path->doublings >= GASNET_C_PAYLOAD || ++path->unharmed < path->wanted)
        return;
    path->unharmed = 0;
    if (has_no_queue(trip) && has_room_for(way, path->window.most, path->doublings + 1))
        path->doublings++;
}

/* A request was lost: chunks fit one packet again, since of a chunk of several the rest of a lost one's packets would
 * stay in the receiver's memory. Where they didn't, the next try is put off eight times as long. */
static void shrink_chunk(struct gasnetl_path *path) {
    if (path->doublings && path->wanted < MOST_UNHARMED)
        path->wanted *= PUT_OFF;
    path->doublings = path->unharmed = 0;
}

/* ---- When something is due. */

/* When the next probe goes: by the time since the last transmission, doubled for each probe without an answer, and
 * behind the first few of them quadrupled: then it isn't loss that keeps the answer away. */
static uint64_t probe_due(const struct gasnetl_job *job, const struct gasnetl_flight *flight) {
    unsigned late = flight->probes < EAGER ? 0 : flight->probes - EAGER, doublings = flight->probes + late;
    uint64_t time = gasnetl_round_trip_timeout(&flight->trip)
                 << (doublings < MOST_DOUBLINGS ? doublings : MOST_DOUBLINGS);
    return flight->sent_at + (time < job->config.resend ? time : job->config.resend);
}

/* When the first of the flight is lost, or the next probe goes. */
static uint64_t flight_due(const struct gasnetl_job *job, const struct gasnetl_path *path,
                           const struct gasnetl_flight *flight) {
    if (!flight->sequence.count)
        return UINT64_MAX;
    const struct gasnetl_transmission *first = &path->of[flight->sequence.first];
    if (first->order < flight->answered)
        return first->at + gasnetl_round_trip_reordering(&flight->trip);
    return probe_due(job, flight);
}

static void look_by(struct gasnetl_recovery *recovery, uint64_t time) {
    if (time < recovery->next_look)
        recovery->next_look = time;
}

/* ---- What is sent. */

bool gasnetl_recovery_may_send(const struct gasnetl_job *job, uint16_t to, enum gasnetl_server server,
                               unsigned waiting) {
    const struct gasnetl_path *path = &job->recovery.paths[to];
    return !path->lost.count && path->flights[server].sequence.count + waiting < path->window.size;
}

unsigned gasnetl_recovery_together(const struct gasnetl_job *job, uint16_t to) {
    unsigned part = job->recovery.paths[to].window.size / PARTS;
    return part ? part : 1;
}

/* The request in the slot goes, for the first time or again. */
static void goes(struct gasnetl_job *job, struct gasnetl_path *path, uint8_t slot) {
    struct gasnetl_transmission *one = &path->of[slot];
    struct gasnetl_flight *flight = &path->flights[one->server];
    one->at = flight->sent_at = job->progress.now;
    one->order = ++path->order;
    one->times++;
    append(path, &flight->sequence, slot);
    look_by(&job->recovery, flight_due(job, path, flight));
}

void gasnetl_recovery_sent(struct gasnetl_job *job, uint16_t to, uint16_t slot, enum gasnetl_server server) {
    struct gasnetl_path *path = &job->recovery.paths[to];
    path->of[slot] = (struct gasnetl_transmission){ .server = server };
    goes(job, path, (uint8_t)slot);
}

/* Sends the request in a slot once more, which is in no list. */
static void send_again(struct gasnetl_job *job, uint16_t to, uint8_t slot) {
    uint64_t length = gasnet_c_again(&job->node, to, slot, gasnetl_network_room(&job->network), GASNET_C_ROOM);
    if (length)
        gasnetl_network_send(&job->network, to, gasnetl_network_room(&job->network), length);
    job->progress.resent++;
    goes(job, &job->recovery.paths[to], slot);
}

/* Sends lost requests again, as the window lets them. */
static void send_lost(struct gasnetl_job *job, uint16_t to) {
    struct gasnetl_path *path = &job->recovery.paths[to];
    while (path->lost.count) {
        uint8_t slot = path->lost.first;
        if (path->flights[path->of[slot].server].sequence.count >= path->window.size)
            return;
        take_out(path, &path->lost, slot);
        path->of[slot].is_lost = false;
        send_again(job, to, slot);
    }
}

/* ---- What is lost. */

/* How many of the requests on the way wait in queues: as many as the part of a round trip that is longer than the least
 * one says. A host's own delays are no queue. */
static unsigned waiting_in_queues(const struct gasnetl_path *path, const struct gasnetl_flight *flight) {
    uint64_t smoothed = gasnetl_round_trip_smoothed(&flight->trip), least = flight->trip.least;
    return smoothed > least + DELAY ? (unsigned)(path->window.size * (smoothed - least) / smoothed) : 0;
}

static void lose(struct gasnetl_path *path, struct gasnetl_flight *flight, uint8_t slot) {
    struct gasnetl_transmission *one = &path->of[slot];
    take_out(path, &flight->sequence, slot);
    append(path, &path->lost, slot);
    one->is_lost = true;
    shrink_chunk(path);
    gasnetl_window_lost(&path->window, one->order, path->order, waiting_in_queues(path, flight));
}

/* Finds the requests of a flight that are lost, by the order of answers or by the time since. */
static void find_lost(struct gasnetl_job *job, struct gasnetl_path *path, struct gasnetl_flight *flight) {
    uint64_t patience = gasnetl_round_trip_reordering(&flight->trip);
    while (flight->sequence.count) {
        uint8_t slot = flight->sequence.first;
        const struct gasnetl_transmission *one = &path->of[slot];
        bool by_order = one->order + REORDERING <= flight->answered;
        if (one->order > flight->answered || (!by_order && job->progress.now - one->at < patience))
            return;
        *(by_order ? &path->by_order : &path->by_time) += 1;
        lose(path, flight, slot);
    }
}

/* ---- What is answered. */

/* Whether the answer that comes now is to this transmission: where the request went more than once it may be to an
 * earlier one, if it comes sooner than any round trip, or later than one is waited for. */
static bool is_answer_to(const struct gasnetl_transmission *one, const struct gasnetl_round_trip *trip, uint64_t time) {
    return !one->is_lost && (one->times == 1 || (time >= trip->least && time <= gasnetl_round_trip_timeout(trip)));
}

/* What an answer says of the way, and of the requests that went before. Where it may be to an earlier transmission it
 * says nothing, and time-outs stay as long as they became (Karn's rule). */
static void note_answer(struct gasnetl_job *job, struct gasnetl_path *path, const struct gasnetl_transmission *one) {
    struct gasnetl_flight *flight = &path->flights[one->server];
    uint64_t time = job->progress.now - one->at;
    if (one->is_lost || (one->times > 1 && time < flight->trip.least))
        path->spurious++;
    if (!is_answer_to(one, &flight->trip, time))
        return;
    if (one->times == 1)
        gasnetl_round_trip_measured(&flight->trip, time);
    else
        gasnetl_round_trip_noted(&flight->trip, time);
    if (one->order > flight->answered)
        flight->answered = one->order;
    flight->probes = 0;
}

void gasnetl_recovery_answered(struct gasnetl_job *job, uint16_t to, uint16_t slot) {
    struct gasnetl_path *path = &job->recovery.paths[to];
    struct gasnetl_transmission *one = &path->of[slot];
    if (!one->times)
        return;
    struct gasnetl_flight *flight = &path->flights[one->server];
    note_answer(job, path, one);
    gasnetl_window_answered(&path->window, flight->sequence.count);
    grow_chunk(&job->control.ways[to], path, &flight->trip);
    take_out(path, one->is_lost ? &path->lost : &flight->sequence, (uint8_t)slot);
    one->times = 0;
    find_lost(job, path, flight);
    send_lost(job, to);
    look_by(&job->recovery, flight_due(job, path, flight));
}

/* ---- What is due. */

/* The last one of a flight goes once more: its answer tells of all that went before it. */
static void probe(struct gasnetl_job *job, uint16_t to, struct gasnetl_flight *flight) {
    struct gasnetl_path *path = &job->recovery.paths[to];
    uint8_t slot = flight->sequence.last;
    path->probed++;
    if (++flight->probes == COLLAPSE && path->of[slot].server == GASNETL_BY_LIBRARY)
        gasnetl_window_collapsed(&path->window, path->order);
    take_out(path, &flight->sequence, slot);
    send_again(job, to, slot);
}

static void look_at(struct gasnetl_job *job, uint16_t to, struct gasnetl_flight *flight) {
    struct gasnetl_path *path = &job->recovery.paths[to];
    if (!flight->sequence.count || job->progress.now < flight_due(job, path, flight))
        return;
    find_lost(job, path, flight);
    if (flight->sequence.count && job->progress.now >= probe_due(job, flight))
        probe(job, to, flight);
}

void gasnetl_recovery_look(struct gasnetl_job *job) {
    struct gasnetl_recovery *recovery = &job->recovery;
    if (job->progress.now < recovery->next_look)
        return;
    recovery->next_look = UINT64_MAX;
    for (uint16_t node = 0; node < job->nodes; node++) {
        struct gasnetl_path *path = &recovery->paths[node];
        for (int server = 0; server < GASNETL_SERVERS; server++) {
            look_at(job, node, &path->flights[server]);
            look_by(recovery, flight_due(job, path, &path->flights[server]));
        }
        send_lost(job, node);
    }
}

/* ---- What is told. */

void gasnetl_recovery_tell(const struct gasnetl_job *job) {
    for (uint16_t node = 0; node < job->nodes; node++) {
        const struct gasnetl_path *path = &job->recovery.paths[node];
        if (node == job->me || !path->order)
            continue;
        fprintf(stderr,
                "gasnet: node %u: to node %u: sent %" PRIu64 ", again by order %" PRIu64 ", by time %" PRIu64
                ", probes %" PRIu64 ", spurious %" PRIu64 ", round trip %" PRIu64 " us, window %u\n",
                job->me, node, path->order, path->by_order, path->by_time, path->probed, path->spurious,
                gasnetl_round_trip_smoothed(&path->flights[GASNETL_BY_LIBRARY].trip), path->window.size);
    }
}
