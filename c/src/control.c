#include "control.h"

#include <inttypes.h>
#include <stdio.h>
#include <string.h>
#include <sys/random.h>

#include "absent.h"
#include "errors.h"
#include "exit.h"
#include "job.h"
#include "paths.h"
#include "words.h"

enum { HELLO = 1, END = 2 }; /* kinds */
enum {
    WANTS = 1,
    IS_PLACED = 2,
    IS_READY = 4,
    HAS_HEARD = 8,
    SERVES_PACKS = 16
};                                             /* flags of a HELLO; the fourth: that the other is ready */
enum { FORCED = 1, HEARD = 2, IS_ANSWER = 4 }; /* flags of an END */
/* Microseconds; the first two before the second hello, with the latter for each node, and the third between two. */
enum {
    AGAIN = 10000,
    AGAIN_EACH = 300,
    MOST_AGAIN = 320000,
    SETTLED = 100000,
    NAP = 2000,
    LATE = 5000000,
    MILLISECOND = 1000
};

/* A datagram, whose fields go in this order, in network byte order, behind the magic. */
struct datagram {
    uint8_t kind, flags;
    uint16_t from;
    uint64_t job;
    uint64_t run;    /* the sender's number */
    uint64_t echo;   /* the receiver's, as the sender heard it; 0 where it hasn't */
    uint64_t at;     /* when a HELLO that wants an answer was sent; in an answer what it answers has */
    uint64_t first;  /* a HELLO's size, an END's code */
    uint64_t second; /* a HELLO's base */
    uint64_t buffer; /* the bytes that the receiver may have on the way to the sender */
    uint32_t mtu;    /* that the sender found of the way */
    uint32_t nodes;  /* how many the sender counts, its GASNET_CREDITS, and its GASNET_RESEND in microseconds */
    uint32_t credits;
    uint32_t resend;
    uint32_t layout; /* of its build */
};
/* Bytes: where fields stand, and of the whole. */
enum { MAGIC = 4, AT_JOB = 8, AT_RUN = 16, AT_WHEN = 32, FRONT = 40, LENGTH = 84 };

static const uint8_t magic[MAGIC] = { 'G', 'N', 'L', '3' };

/* What two builds have to have in common. */
static const uint32_t layout =
    (uint32_t)GASNETL_OWN * 31 + (uint32_t)GASNET_C_PAYLOAD * 17 + GASNETL_STAGE / 4096 * 7 + GASNET_C_ROOM;

/* Another version's magic differs in its last byte alone. */
bool gasnetl_control_is(const uint8_t *bytes, size_t length) {
    return gasnetl_is_sealed(bytes, length) ||
           (length >= FRONT && !memcmp(bytes, magic, MAGIC - 1) && bytes[MAGIC] <= END);
}

static void write_datagram(uint8_t *bytes, const struct datagram *datagram) {
    memcpy(bytes, magic, MAGIC);
    bytes = gasnetl_word_write(bytes + MAGIC, datagram->kind, 1);
    bytes = gasnetl_word_write(bytes, datagram->flags, 1);
    bytes = gasnetl_word_write(bytes, datagram->from, 2);
    bytes = gasnetl_word_write(bytes, datagram->job, 8);
    bytes = gasnetl_word_write(bytes, datagram->run, 8);
    bytes = gasnetl_word_write(bytes, datagram->echo, 8);
    bytes = gasnetl_word_write(bytes, datagram->at, 8);
    bytes = gasnetl_word_write(bytes, datagram->first, 8);
    bytes = gasnetl_word_write(bytes, datagram->second, 8);
    bytes = gasnetl_word_write(bytes, datagram->buffer, 8);
    bytes = gasnetl_word_write(bytes, datagram->mtu, 4);
    bytes = gasnetl_word_write(bytes, datagram->nodes, 4);
    bytes = gasnetl_word_write(bytes, datagram->credits, 4);
    bytes = gasnetl_word_write(bytes, datagram->resend, 4);
    gasnetl_word_write(bytes, datagram->layout, 4);
}

/* The next number of so many bytes. */
static uint64_t next_word(const uint8_t **bytes, unsigned count) {
    const uint8_t *at = *bytes;
    *bytes += count;
    return gasnetl_word_read(at, count);
}

static struct datagram read_datagram(const uint8_t *bytes) {
    struct datagram datagram;
    bytes += MAGIC;
    datagram.kind = (uint8_t)next_word(&bytes, 1);
    datagram.flags = (uint8_t)next_word(&bytes, 1);
    datagram.from = (uint16_t)next_word(&bytes, 2);
    datagram.job = next_word(&bytes, 8);
    datagram.run = next_word(&bytes, 8);
    datagram.echo = next_word(&bytes, 8);
    datagram.at = next_word(&bytes, 8);
    datagram.first = next_word(&bytes, 8);
    datagram.second = next_word(&bytes, 8);
    datagram.buffer = next_word(&bytes, 8);
    datagram.mtu = (uint32_t)next_word(&bytes, 4);
    datagram.nodes = (uint32_t)next_word(&bytes, 4);
    datagram.credits = (uint32_t)next_word(&bytes, 4);
    datagram.resend = (uint32_t)next_word(&bytes, 4);
    datagram.layout = (uint32_t)next_word(&bytes, 4);
    return datagram;
}

static void send_datagram(struct gasnetl_job *job, uint16_t to, struct datagram *datagram) {
    const struct gasnetl_control *control = &job->control;
    uint8_t bytes[LENGTH];
    datagram->from = job->me;
    datagram->job = job->start.job;
    datagram->run = control->run;
    datagram->echo = control->runs[to] ? control->runs[to] : control->heard[to];
    datagram->nodes = job->nodes;
    datagram->credits = job->config.credits;
    datagram->resend = (uint32_t)job->config.resend;
    datagram->layout = layout;
    write_datagram(bytes, datagram);
    gasnetl_network_send(&job->network, to, bytes, LENGTH);
    gasnetl_network_flush(&job->network);
}

bool gasnetl_control_is_own(const struct gasnetl_job *job, const uint8_t *bytes, size_t length, uint64_t *asked) {
    if (length < FRONT || memcmp(bytes, magic, MAGIC) || gasnetl_word_read(bytes + AT_RUN, 8) != job->control.run)
        return false;
    *asked = bytes[MAGIC] == HELLO && bytes[MAGIC + 1] & WANTS ? gasnetl_word_read(bytes + AT_WHEN, 8) : 0;
    return true;
}

/* ---- Runs. */

/* A message to a node has at most as many bytes as fit a packet of this MTU. */
static void limit_messages(struct gasnetl_job *job, uint16_t node, uint32_t mtu) {
    uint32_t most = gasnetl_path_message(&job->network, node, mtu);
    if (most < job->control.message)
        job->control.message = most;
}

/* The MTU of the way to a node: that of an earlier one on its host, where there is one, as the system is slow to tell.
 */
static uint32_t mtu_to(const struct gasnetl_job *job, uint16_t node) {
    for (uint16_t other = 0; other < node; other++)
        if (other != job->me && gasnetl_places_share_host(&job->network.places, other, node))
            return job->control.mtu[other];
    return gasnetl_path_mtu(&job->network, node);
}

/* Finds what this node can know of the ways to and from the others. */
static void find_ways(struct gasnetl_job *job) {
    struct gasnetl_control *control = &job->control;
    control->buffer = gasnetl_path_buffer(&job->network, job->nodes - 1u);
    control->message = GASNET_C_PAYLOAD;
    control->ways[job->me] = (struct gasnetl_way){ GASNET_C_PAYLOAD, UINT32_MAX, UINT64_MAX };
    for (uint16_t node = 0; node < job->nodes; node++) {
        if (node == job->me)
            continue;
        control->mtu[node] = job->config.mtu ? job->config.mtu : mtu_to(job, node);
        limit_messages(job, node, control->mtu[node]);
    }
}

bool gasnetl_control_start(struct gasnetl_job *job) {
    struct gasnetl_control *control = &job->control;
    while (!control->run)
        if (getrandom(&control->run, sizeof control->run, 0) != sizeof control->run)
            return false;
    control->runs[job->me] = control->run;
    find_ways(job);
    return true;
}

/* The last step of splitmix64: each bit of its result depends on each one of the number. */
static uint64_t mix_number(uint64_t number) {
    number = (number ^ number >> 30) * 0xbf58476d1ce4e5b9u;
    number = (number ^ number >> 27) * 0x94d049bb133111ebu;
    return number ^ number >> 31;
}

/* The endpoint's job is of GASNET_JOB, and of the runs of all nodes. */
static void make_job(struct gasnetl_job *job) {
    uint64_t number = mix_number(job->start.job);
    for (uint16_t node = 0; node < job->nodes; node++)
        number = mix_number(number + 0x9e3779b97f4a7c15u + job->control.runs[node]);
    gasnetl_word_write(job->control.job, number, sizeof job->control.job);
}

uint64_t gasnetl_control_job(const struct gasnetl_control *control) {
    return gasnetl_word_read(control->job, sizeof control->job);
}

bool gasnetl_control_is_of_job(const struct gasnetl_control *control, const uint8_t *bytes, size_t length) {
    return length >= AT_JOB + sizeof control->job && !memcmp(bytes + AT_JOB, control->job, sizeof control->job);
}

/* Whether a datagram was sent in this run, by the peer whose number the first one named. */
static bool is_fresh(const struct gasnetl_control *control, uint16_t from, const struct datagram *datagram) {
    const uint64_t known = control->runs[from];
    return datagram->echo == control->run && datagram->run && (!known || known == datagram->run);
}

/* ---- The beginning. */

static void send_hello(struct gasnetl_job *job, uint16_t to, bool wants, uint64_t at) {
    const struct gasnetl_control *control = &job->control;
    struct datagram hello = {
        .kind = HELLO, .first = job->segment.size, .buffer = control->buffer, .mtu = control->mtu[to], .at = at
    };
    hello.flags =
        (uint8_t)((wants ? WANTS : 0) | (control->has_base ? IS_PLACED : 0) | (control->is_ready ? IS_READY : 0) |
                  (control->knows_ready[to] ? HAS_HEARD : 0) | (job->packs.served ? SERVES_PACKS : 0));
    hello.second = (uint64_t)(uintptr_t)job->segment.base;
    send_datagram(job, to, &hello);
}

static void tell_hello(struct gasnetl_job *job, uint16_t to, bool wants) {
    send_hello(job, to, wants, wants ? gasnetl_clock() : 0);
}

/* Whether a segment can have this size, and, where it is placed, this base: whoever is on the path may say any. */
static bool is_segment(const struct datagram *hello) {
    return hello->first <= GASNETL_MOST && hello->first % GASNET_PAGESIZE == 0 &&
           hello->second <= UINTPTR_MAX - GASNETL_OWN - hello->first;
}

/* The first greeting of a node says these, and no later one changes them. */
static void take_size(struct gasnetl_job *job, uint16_t from, const struct datagram *hello) {
    struct gasnetl_control *control = &job->control;
    const uint32_t own = control->mtu[from], mtu = hello->mtu && hello->mtu < own ? hello->mtu : own;
    if (control->knows_size[from])
        return;
    job->segment.sizes[from] = hello->first;
    control->ways[from] = (struct gasnetl_way){ gasnetl_path_chunk(&job->network, from, mtu), mtu, hello->buffer };
    job->network.packet[from] = gasnetl_path_packet(&job->network, from, mtu);
    limit_messages(job, from, mtu);
    control->knows_size[from] = true;
}

static void take_base(struct gasnetl_job *job, uint16_t from, const struct datagram *hello) {
    if (job->control.knows_base[from])
        return;
    job->segment.bases[from] = (uint8_t *)(uintptr_t)hello->second;
    job->packs.serves[from] = hello->flags & SERVES_PACKS;
    job->control.knows_base[from] = true;
    gasnetl_seals_confirm(&job->network.seals, from); /* it is placed since it knows all sizes, this node's too */
}

/* An answer tells how long the way there and back is. */
static void take_time(struct gasnetl_job *job, uint16_t from, const struct datagram *hello) {
    const uint64_t now = gasnetl_clock();
    if (!(hello->flags & WANTS) && hello->at && hello->at < now)
        gasnetl_recovery_greeted(job, from, now - hello->at);
}

static void take_hello(struct gasnetl_job *job, uint16_t from, const struct datagram *hello) {
    struct gasnetl_control *control = &job->control;
    if (!is_segment(hello))
        return;
    take_time(job, from, hello);
    take_size(job, from, hello);
    if (hello->flags & IS_PLACED)
        take_base(job, from, hello);
    if (hello->flags & IS_READY)
        control->knows_ready[from] = true;
    if (hello->flags & HAS_HEARD)
        control->knows_we_are_ready[from] = true;
    if (hello->flags & WANTS && control->has_size)
        send_hello(job, from, false, hello->at);
}

uint64_t gasnetl_control_ping(struct gasnetl_job *job, uint16_t node) {
    const uint64_t now = gasnetl_clock();
    send_hello(job, node, true, now);
    return now;
}

/* Tells all nodes, and asks those of which it isn't known, or to which the way isn't measured. */
static void tell_all(struct gasnetl_job *job, const bool *known) {
    for (uint16_t node = 0; node < job->nodes; node++)
        if (node != job->me)
            tell_hello(job, node, !known[node] || !gasnetl_recovery_is_measured(job, node));
}

/* Whether it isn't known of some node; asks those where it is time to. */
static bool ask_unknown(struct gasnetl_job *job, const bool *known, bool asks) {
    bool lacks = false;
    for (uint16_t node = 0; node < job->nodes; node++) {
        if (known[node])
            continue;
        lacks = true;
        if (asks)
            tell_hello(job, node, true);
    }
    return lacks;
}

/* A number that has to be the same on all nodes: as two nodes have it, and the unit in which it is told. */
struct setting {
    const char *name, *remedy;
    uint32_t theirs, own, unit;
};

/* Ends the job where a node has other settings than this one. That node is told first, so that it can say so too. */
static void judge_settings(struct gasnetl_job *job, uint16_t from, const struct datagram *theirs) {
    const char *same = "set the same on all nodes";
    const struct setting settings[] = {
        { "GASNET_CREDITS", same, theirs->credits, job->config.credits, 1 },
        { "GASNET_RESEND", same, theirs->resend, (uint32_t)job->config.resend, MILLISECOND },
        { "GASNET_NODES", same, theirs->nodes, job->nodes, 1 },
        { "layout", "it has another build of the library, so link all nodes with one", theirs->layout, layout, 1 },
    };
    for (unsigned i = 0; i < sizeof settings / sizeof *settings; i++) {
        const struct setting *one = &settings[i];
        if (job->attached || job->ender || one->theirs == one->own)
            continue;
        tell_hello(job, from, false);
        gasnetl_stop(GASNETL_MISUSE, "node %u has %s=%" PRIu32 ", this node %" PRIu32 ": %s", from, one->name,
                     one->theirs / one->unit, one->own / one->unit, one->remedy);
    }
}

/* Tells all nodes, and asks again until it is known of each, or the time is over, if it isn't 0. Whether it is known of
 * each. It waits twice as long each time, as all others ask too, and at first longer the more they are. Where it takes
 * long a line says why, once. */
static bool exchange(struct gasnetl_job *job, const bool *known, uint64_t time) {
    uint64_t begun = gasnetl_clock(), asked = begun, again = AGAIN + job->nodes * (uint64_t)AGAIN_EACH;
    bool told = false;
    tell_all(job, known);
    for (;;) {
        uint64_t now = gasnetl_clock();
        bool asks = now - asked >= again;
        if (!ask_unknown(job, known, asks))
            return true;
        if (time && now - begun > time)
            return false;
        if (asks) {
            asked = now;
            again = again < MOST_AGAIN / 2 ? 2 * again : MOST_AGAIN;
        }
        if (!told && now - begun > LATE)
            told = gasnetl_absent_tell(job, known, now - begun);
        if (!gasnetl_poll(job, 16))
            gasnetl_sleep(&job->turns, job->network.socket, NAP);
    }
}

/* The same of what all nodes have to say: one that doesn't ends the job. */
static void exchange_all(struct gasnetl_job *job, const bool *known) {
    uint64_t begun = gasnetl_clock();
    if (!exchange(job, known, job->config.peer_timeout))
        gasnetl_absent_end(job, known, gasnetl_clock() - begun);
}

void gasnetl_exchange_sizes(struct gasnetl_job *job) {
    job->control.has_size = true;
    job->control.knows_size[job->me] = true;
    job->segment.sizes[job->me] = job->segment.size;
    exchange_all(job, job->control.knows_size);
    make_job(job);
}

void gasnetl_exchange_bases(struct gasnetl_job *job) {
    job->control.has_base = true;
    job->control.knows_base[job->me] = true;
    job->segment.bases[job->me] = job->segment.base;
    exchange_all(job, job->control.knows_base);
}

void gasnetl_meet(struct gasnetl_job *job) {
    struct gasnetl_control *control = &job->control;
    control->is_ready = control->is_meeting = job->progress.keeps = true;
    control->knows_ready[job->me] = control->knows_we_are_ready[job->me] = true;
    exchange_all(job, control->knows_ready);
    exchange(job, control->knows_we_are_ready, SETTLED);
    control->is_meeting = job->progress.keeps = false;
}

/* ---- The end. */

void gasnetl_tell_end(struct gasnetl_job *job, bool forced) {
    struct gasnetl_control *control = &job->control;
    for (uint16_t node = 0; node < job->nodes; node++) {
        if (node == job->me || control->knows_we_left[node])
            continue;
        struct datagram end = { .kind = END, .first = (uint64_t)control->code };
        end.flags = (uint8_t)((forced ? FORCED : 0) | (control->has_left[node] ? HEARD : 0));
        send_datagram(job, node, &end);
    }
}

static void take_end(struct gasnetl_job *job, uint16_t from, const struct datagram *end) {
    struct gasnetl_control *control = &job->control;
    control->has_left[from] = true;
    if (end->flags & HEARD)
        control->knows_we_left[from] = true;
    if ((job->ender || end->flags & FORCED) && !(end->flags & IS_ANSWER)) {
        struct datagram answer = { .kind = END, .flags = HEARD | IS_ANSWER, .first = (uint64_t)control->code };
        send_datagram(job, from, &answer);
    }
    if (end->flags & FORCED && !job->ender)
        gasnetl_end_by_peer(job, (int)end->first);
}

/* What came isn't of this run, or its sender hasn't heard this node. Nothing is believed of it. */
static void take_stale(struct gasnetl_job *job, uint16_t from, const struct datagram *datagram) {
    struct gasnetl_control *control = &job->control;
    gasnetl_absent_came(control, from, GASNETL_CAME_STALE);
    if (control->runs[from] && control->runs[from] != datagram->run)
        return;
    control->heard[from] = datagram->run;
    if (datagram->kind == HELLO && datagram->flags & WANTS && control->has_size)
        send_hello(job, from, false, datagram->at);
}

static void take_fresh(struct gasnetl_job *job, uint16_t from, const struct datagram *datagram) {
    gasnetl_absent_came(&job->control, from, GASNETL_CAME_FRESH);
    job->control.runs[from] = datagram->run;
    if (!gasnetl_seals_settle(&job->network.seals, from))
        return; /* the peer isn't known before, and so is asked again */
    gasnetl_peer_heard(job, from);
    judge_settings(job, from, datagram);
    if (datagram->kind == HELLO)
        take_hello(job, from, datagram);
    else if (datagram->kind == END)
        take_end(job, from, datagram);
}

void gasnetl_control_take(struct gasnetl_job *job, uint16_t from, const uint8_t *bytes, size_t length) {
    if (gasnetl_is_sealed(bytes, length)) {
        gasnetl_absent_came(&job->control, from, GASNETL_CAME_SEALED);
        return;
    }
    if (bytes[MAGIC - 1] != magic[MAGIC - 1])
        gasnetl_absent_came(&job->control, from, GASNETL_CAME_OTHER_VERSION);
    if (bytes[MAGIC - 1] != magic[MAGIC - 1] || length != LENGTH)
        return;
    const struct datagram datagram = read_datagram(bytes);
    if (datagram.from != from)
        return;
    if (datagram.job != job->start.job)
        gasnetl_absent_came(&job->control, from, GASNETL_CAME_OTHER_JOB);
    else if (is_fresh(&job->control, from, &datagram))
        take_fresh(job, from, &datagram);
    else
        take_stale(job, from, &datagram);
}
