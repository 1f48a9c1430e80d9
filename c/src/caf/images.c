/* The start and the end of an image, and what is known of the others. */
#include <signal.h>
#include <stdio.h>
#include <stdlib.h>
#include <string.h>
#include <sys/random.h>

#include "collectives.h"
#include "errors.h"
#include "far.h"
#include "runner.h"
#include "state.h"
#include "step.h"

struct caf_state caf_state;

/* Of libgfortran. */
_Noreturn void _gfortran_stop_numeric(int code, bool quiet);
_Noreturn void _gfortran_stop_string(const char *text, size_t length, bool quiet);
_Noreturn void _gfortran_error_stop_numeric(int code, bool quiet);
_Noreturn void _gfortran_error_stop_string(const char *text, size_t length, bool quiet);
void _gfortran_flush_i4(const int *unit);

/* ---- Messages are counted, so that what an image tells of its end holds after all that it sent before. */

int caf_sender(gasnet_token_t token) {
    gasnet_node_t node = 0;
    gasnet_AMGetMsgSource(token, &node);
    return node;
}

/* What a peer told of itself holds as soon as all that it counted before has come. */
static void settle_condition(struct caf_peer *peer) {
    if (peer->told == peer->condition || peer->came != peer->due)
        return;
    peer->condition = peer->told;
    caf_state.gone++;
}

int caf_sender_counted(gasnet_token_t token) {
    int node = caf_sender(token);
    struct caf_peer *peer = &caf_state.peers[node];
    peer->came++;
    if (peer->told != CAF_RUNNING)
        settle_condition(peer);
    return node;
}

gasnet_node_t caf_counted(int node) {
    caf_state.peers[node].sent++;
    return (gasnet_node_t)node;
}

/* The operations that an image began of a team, as it tells them at its end. */
struct began {
    uint64_t team;
    uint64_t sequence;
};

enum { BEGAN = 8192 / sizeof(struct began) }; /* of so many teams a message tells */

void caf_began_handler(gasnet_token_t from, void *bytes, size_t length) {
    int node = caf_sender(from);
    const struct began *began = bytes;
    for (size_t i = 0; i < length / sizeof *began; i++)
        caf_team_find(began[i].team)->left[node] = (uint32_t)began[i].sequence;
    caf_sender_counted(from); /* behind that: what the sender told of its end may hold now */
}

void caf_condition_handler(gasnet_token_t from, int32_t condition, int32_t due) {
    struct caf_peer *peer = &caf_state.peers[caf_sender(from)];
    peer->told = (enum caf_condition)condition;
    peer->due = (uint32_t)due;
    settle_condition(peer);
}

static void tell_began(const struct began *began, size_t count) {
    for (int node = 0; node < caf_state.images; node++)
        if (node != caf_state.me)
            gasnet_AMRequestMedium0(caf_counted(node), CAF_BEGAN, (void *)(uintptr_t)began, count * sizeof *began);
}

/* Tells all teams in which this image began operations. */
static void tell_teams(void) {
    struct began began[BEGAN];
    size_t count = 0;
    for (const struct caf_team *team = caf_state.teams; team; team = team->next) {
        if (!team->sequence)
            continue;
        began[count++] = (struct began){ team->id, team->sequence };
        if (count == BEGAN) {
            tell_began(began, count);
            count = 0;
        }
    }
    tell_began(began, count);
}

static void tell_condition(enum caf_condition condition) {
    for (int node = 0; node < caf_state.images; node++)
        if (node != caf_state.me)
            gasnet_AMRequestShort2((gasnet_node_t)node, CAF_CONDITION, (int32_t)condition,
                                   (int32_t)caf_state.peers[node].sent);
}

void caf_leave(enum caf_condition condition) {
    if (caf_state.has_ended || !caf_state.is_started)
        return;
    caf_settle_all();
    caf_state.has_ended = true;
    tell_teams();
    tell_condition(condition);
    caf_state.peers[caf_state.me].condition = condition;
    GASNET_BLOCKUNTIL(caf_state.gone == caf_state.images - 1);
}

/* ---- The start. */

static void at_exit(int status, void *nothing) {
    (void)nothing;
    if (!status || caf_state.is_stopping)
        caf_leave(CAF_STOPPED);
}

static gasnet_handlerentry_t handlers[] = {
    { CAF_PUT, caf_put_handler },
    { CAF_PUT_DONE, caf_put_done_handler },
    { CAF_GET, caf_get_handler },
    { CAF_GET_DONE, caf_get_done_handler },
    { CAF_STEP, caf_step_handler },
    { CAF_STEP_DONE, caf_step_done_handler },
    { CAF_MAKE, caf_make_handler },
    { CAF_MAKE_DONE, caf_make_done_handler },
    { CAF_TICK, caf_tick_handler },
    { CAF_ROUND, caf_round_handler },
    { CAF_MEET, caf_meet_handler },
    { CAF_MAIL, caf_mail_handler },
    { CAF_PLACE, caf_place_handler },
    { CAF_BEGAN, caf_began_handler },
    { CAF_CONDITION, caf_condition_handler },
    { CAF_ERROR, caf_error_handler },
};

/* All images take the random number of the first one as the seed. */
static void start_seed(void) {
    uint64_t seeds[GASNET_MAXNODES], mine = 1;
    if (getrandom(&mine, sizeof mine, 0) != sizeof mine)
        caf_die("the system has no random number");
    caf_meet(caf_state.team, mine, seeds);
    caf_state.seed = seeds[0];
}

/* GASNet raises SIGQUIT where another node ends the job. libgfortran would write a backtrace then, and end with the
 * signal. */
static void block_quit(void) {
    sigset_t quit;
    sigemptyset(&quit);
    sigaddset(&quit, SIGQUIT);
    sigprocmask(SIG_BLOCK, &quit, NULL);
}

/* Whether a variable is 1, where it may be 0 or 1. */
static bool is_set(const char *name) {
    const char *text = gasnet_getenv(name);
    if (text && strcmp(text, "0") && strcmp(text, "1"))
        caf_die("%s is '%s': it may be 0 or 1", name, text);
    return text && *text == '1';
}

/* Images called a collective of the endpoint with other lengths. */
static void end_by_mismatch(int node) {
    caf_die("%s: image %d brings another length, or calls another collective", caf_state.call, node + 1);
}

void caf_start(void) {
    if (caf_state.is_started)
        return;
    block_quit();
    if (gasnet_init(NULL, NULL) != GASNET_OK)
        exit(1);
    uintptr_t segment = gasnet_getMaxLocalSegmentSize();
    if (gasnet_attach(handlers, sizeof handlers / sizeof *handlers, segment, 0) != GASNET_OK)
        exit(1);
    caf_state.me = gasnet_mynode();
    caf_state.images = gasnet_nodes();
    GASNET_SAFE(gasnet_getSegmentInfo(caf_state.segments, caf_state.images));
    caf_state.is_proved = is_set("GASNET_CAF_PROVED");
    caf_state.is_started = true;
    caf_heap_start(&caf_state.heap, caf_state.segments[caf_state.me].addr, caf_state.segments[caf_state.me].size);
    caf_team_start();
    caf_steps_start();
    gasnetl_collectives_on_mismatch(end_by_mismatch);
    on_exit(at_exit, NULL);
    start_seed();
}

void _gfortran_caf_init(int *argc, char ***argv) {
    (void)argc;
    (void)argv;
    caf_start();
    caf_barrier(caf_state.team); /* before it each image gave its static coarrays their initial values */
}

/* ---- The end. */

void _gfortran_caf_finalize(void) {
    _gfortran_flush_i4(NULL);
    caf_leave(CAF_STOPPED);
}

void _gfortran_caf_stop_numeric(int code, bool quiet) {
    caf_state.is_stopping = true;
    _gfortran_flush_i4(NULL);
    _gfortran_stop_numeric(code, quiet);
}

void _gfortran_caf_stop_str(const char *text, size_t length, bool quiet) {
    caf_state.is_stopping = true;
    _gfortran_flush_i4(NULL);
    _gfortran_stop_string(text, length, quiet);
}

/* ---- Of a status 0 GASNet doesn't end the others, so this image tells them, and gasnetrun, for those that compute. */

void caf_error_handler(gasnet_token_t from) {
    (void)from;
    caf_state.has_ended = true;
    exit(0);
}

static void end_others(void) {
    for (int node = 0; node < caf_state.images; node++)
        if (node != caf_state.me)
            gasnet_AMRequestShort0((gasnet_node_t)node, CAF_ERROR);
    gasnetl_runner_tell(GASNETL_ENDED_WELL, (unsigned)caf_state.me);
}

enum { STATUS = 0xff }; /* what a process's status keeps of a code */

void _gfortran_caf_error_stop(int code, bool quiet) {
    caf_start();
    caf_state.has_ended = true;
    if (!(code & STATUS))
        end_others();
    _gfortran_error_stop_numeric(code, quiet);
}

void _gfortran_caf_error_stop_str(const char *text, size_t length, bool quiet) {
    _gfortran_error_stop_string(text, length, quiet);
}

void _gfortran_caf_fail_image(void) {
    caf_start();
    caf_leave(CAF_FAILED);
    exit(0);
}

/* ---- Images. */

static const struct caf_team *ancestor(int distance) {
    const struct caf_team *team = caf_state.team;
    while (distance-- > 0 && team->parent)
        team = team->parent;
    return team;
}

int _gfortran_caf_this_image(int distance) {
    caf_start();
    return ancestor(distance)->index + 1;
}

static int count_failed(const struct caf_team *team) {
    int count = 0;
    for (int i = 0; i < team->size; i++)
        count += caf_state.peers[team->members[i]].condition == CAF_FAILED;
    return count;
}

int _gfortran_caf_num_images(int distance, int failed) {
    caf_start();
    const struct caf_team *team = ancestor(distance);
    if (failed < 0)
        return team->size;
    gasnet_AMPoll();
    return failed ? count_failed(team) : team->size - count_failed(team);
}

int _gfortran_caf_image_status(int image, int team) {
    (void)team;
    gasnet_AMPoll();
    if (image < 1 || image > caf_state.team->size) /* as libgfortran's own library answers */
        return CAF_STAT_STOPPED_IMAGE;
    switch (caf_state.peers[caf_node(image)].condition) {
    case CAF_STOPPED:
        return CAF_STAT_STOPPED_IMAGE;
    case CAF_FAILED:
        return CAF_STAT_FAILED_IMAGE;
    default:
        return 0;
    }
}

/* Makes the array of the images of this condition: integers of the kind, from index 0, in memory of malloc. Where there
 * is none the array has no memory, as of libgfortran's own library. */
static void list_images(struct caf_descriptor *array, enum caf_condition condition, const int *kind) {
    const struct caf_team *team = caf_state.team;
    size_t bytes = kind ? (size_t)*kind : sizeof(int);
    char images[GASNET_MAXNODES * sizeof(__int128)];
    ptrdiff_t count = 0;
    gasnet_AMPoll();
    for (int i = 0; i < team->size; i++)
        if (caf_state.peers[team->members[i]].condition == condition) {
            const __int128 image = i + 1;
            memcpy(images + (size_t)count++ * bytes, &image, bytes);
        }
    array->base = count ? caf_memory((size_t)count * bytes) : NULL;
    if (count)
        memcpy(array->base, images, (size_t)count * bytes);
    array->dtype.elem_len = bytes;
    array->dtype.rank = 1;
    array->dtype.type = CAF_INTEGER;
    array->span = (ptrdiff_t)bytes;
    array->dim[0] = (struct caf_bounds){ 1, 0, count - 1 };
    array->offset = 0;
}

void _gfortran_caf_failed_images(struct caf_descriptor *array, struct caf_team *team, const int *kind) {
    (void)team;
    list_images(array, CAF_FAILED, kind);
}

void _gfortran_caf_stopped_images(struct caf_descriptor *array, struct caf_team *team, const int *kind) {
    (void)team;
    list_images(array, CAF_STOPPED, kind);
}
