#include "job.h"

#include <errno.h>
#include <stdlib.h>
#include <string.h>
#include <unistd.h>

#include "errors.h"
#include "exit.h"
#include "names.h"

struct gasnetl_job gasnetl_job = { .network = { .socket = -1 }, .turns = { .alarm = -1 } };

/* The configuration, to be found in a program's file: `strings PROGRAM | grep GASNetConfig`. */
__attribute__((used)) static const char configuration[] =
    "$GASNetConfig: (libgasnet) " GASNETL_CONFIG("SEQ|PARSYNC|PAR") " $";

/* How many times GASNET_RESEND the endpoint waits before it sends a request again by itself, where recovery has not. */
enum { PAGE = GASNET_PAGESIZE, LAST_RESORT = 4 };

static uintptr_t pages(uintptr_t bytes) { return bytes / PAGE * PAGE; }

/* ---- The beginning. */

enum { MEBIBYTE = 1 << 20 };

/* Half of the host's memory, in equal parts for its nodes. */
static uintptr_t share_of_host(const struct gasnetl_job *job) {
    unsigned neighbours = job->start.neighbours ? job->start.neighbours : job->nodes ? job->nodes : 1;
    long count = sysconf(_SC_PHYS_PAGES), size = sysconf(_SC_PAGESIZE);
    return count > 0 && size > 0 ? (uintptr_t)count * (uintptr_t)size / 2 / neighbours : GASNETL_MOST;
}

/* Fixes the greatest segment: what GASNET_MAX_SEGSIZE says, else a share of the host's memory, or what the system
 * gives of it. */
static void fix_most(struct gasnetl_job *job) {
    struct gasnetl_segment *segment = &job->segment;
    uintptr_t asked = job->config.max_segment ? job->config.max_segment : share_of_host(job);
    asked = pages(asked < GASNETL_MOST ? asked : GASNETL_MOST);
    segment->most = job->config.max_segment ? asked : gasnetl_segment_given(asked);
    segment->asked = asked;
}

/* Says so where a client that asks for the greatest segment gets less than its share. */
static void tell_most(const struct gasnetl_job *job, uintptr_t segsize) {
    const struct gasnetl_segment *segment = &job->segment;
    if (segsize == segment->most && segment->most < segment->asked && !job->me)
        gasnetl_warn("the segment has %zu MiB, not %zu: the system gives the process no more addresses (ulimit -v), so "
                     "set GASNET_MAX_SEGSIZE or that limit",
                     (size_t)(segment->most / MEBIBYTE), (size_t)(segment->asked / MEBIBYTE));
}

/* Has a table with an entry of zeros for each node, in place of an earlier one. Whether there is memory for it. */
#define MAKES(table) (free(table), ((table) = calloc(job->nodes, sizeof *(table))) != NULL)

/* Makes what has an entry for each node: what a job of few nodes doesn't use costs it nothing. */
static bool make_tables(struct gasnetl_job *job) {
    struct gasnetl_control *control = &job->control;
    struct gasnetl_atomics *atomics = &job->atomics;
    free(atomics->blocks);
    atomics->blocks = calloc((size_t)job->nodes * GASNET_C_MAX_CREDITS, sizeof *atomics->blocks);
    return atomics->blocks && MAKES(atomics->owner) && MAKES(control->runs) && MAKES(control->heard) &&
           MAKES(control->came) && MAKES(control->knows_size) && MAKES(control->knows_base) &&
           MAKES(control->knows_ready) && MAKES(control->knows_we_are_ready) && MAKES(control->has_left) &&
           MAKES(control->knows_we_left) && MAKES(control->ways) && MAKES(control->mtu) && MAKES(job->segment.bases) &&
           MAKES(job->segment.sizes) && MAKES(job->transfers.lanes) && MAKES(job->recovery.paths) &&
           MAKES(job->peers.of) && MAKES(job->packs.serves) && MAKES(job->packs.lanes) &&
           MAKES(job->network.is_unsealed) && MAKES(job->network.single_from) && MAKES(job->network.packet);
}

static int start(struct gasnetl_job *job, int threaded) {
    if (!gasnetl_config_read(&job->config) || !gasnetl_bootstrap(&job->start, &job->network.places))
        return GASNET_ERR_BAD_ARG;
    job->me = job->start.me;
    job->nodes = job->start.nodes;
    if (!make_tables(job))
        return gasnetl_refuse(GASNET_ERR_RESOURCE, "there is no memory for the tables of %u nodes", job->nodes);
    bool has_launcher = job->start.by_pmix || getenv("GASNET_RUNNER");
    if (!job->me || !has_launcher) /* what a launcher hands on, one node tells for all */
        gasnetl_warn_of_names();
    if (job->nodes > 1 && !gasnetl_network_open(&job->network, &job->config, &job->start))
        return GASNET_ERR_RESOURCE;
    if (!gasnetl_control_start(job))
        return gasnetl_refuse(GASNET_ERR_RESOURCE, "the system has no random numbers (%s)", strerror(errno));
    job->network.came_back = gasnetl_peer_refused;
    job->network.job = job;
    job->config.has_thread = job->config.has_thread && job->nodes > 1;
    if (!gasnetl_turns_start(&job->turns, threaded, job->config.has_thread))
        return gasnetl_refuse(GASNET_ERR_RESOURCE, "the system has no mutex or no eventfd for threads");
    job->turns.first = threaded ? NULL : &gasnetl_thread;
    fix_most(job);
    gasnetl_progress_start(job);
    gasnetl_transfers_start(&job->transfers, job->nodes);
    if (!gasnetl_exit_start(job))
        return gasnetl_refuse(GASNET_ERR_RESOURCE, "there is no memory");
    gasnetl_stacks_start(job);
    return GASNET_OK;
}

int gasnetl_init(int *argc, char ***argv, int threaded) {
    (void)argc;
    (void)argv;
    if (atomic_exchange(&gasnetl_job.starts, true))
        return gasnetl_refuse(GASNET_ERR_NOT_INIT, "gasnet_init is called a second time");
    int code = start(&gasnetl_job, threaded);
    gasnetl_job.initialised = code == GASNET_OK;
    gasnetl_job.starts = code == GASNET_OK; /* a call that failed may be repeated */
    return code;
}

static int judge_attach(const struct gasnetl_job *job, uintptr_t segsize) {
    if (job->attached || job->attaches)
        return gasnetl_refuse(GASNET_ERR_NOT_INIT, "gasnet_attach is called a second time");
    if (segsize % PAGE)
        return gasnetl_refuse(GASNET_ERR_BAD_ARG,
                              "gasnet_attach: %zu bytes of a segment aren't a multiple of GASNET_PAGESIZE",
                              (size_t)segsize);
    if (job->nodes > 1 && job->control.has_size && segsize != job->segment.size)
        return gasnetl_refuse(GASNET_ERR_BAD_ARG,
                              "gasnet_attach: a call that failed told the others of %zu bytes: ask for as many again",
                              (size_t)job->segment.size);
    if (segsize > gasnet_getMaxLocalSegmentSize())
        return gasnetl_refuse(GASNET_ERR_BAD_ARG,
                              "gasnet_attach: a segment of %zu bytes is more than gasnet_getMaxLocalSegmentSize(), "
                              "which is %zu; GASNET_MAX_SEGSIZE sets it",
                              (size_t)segsize, (size_t)gasnet_getMaxLocalSegmentSize());
    return GASNET_OK;
}

/* Whether there is as much room above the heap as the client asks for. */
static bool leaves_heap(const struct gasnetl_job *job, uintptr_t minheapoffset) {
    uintptr_t end = (uintptr_t)sbrk(0), base = (uintptr_t)job->segment.base;
    return base < end || base - end >= minheapoffset;
}

/* Makes the endpoint over the segment, and the collectives over it. */
static int fill_segment(struct gasnetl_job *job, const gasnet_c_setup *setup, uintptr_t minheapoffset) {
    if (!leaves_heap(job, minheapoffset))
        return gasnetl_refuse(GASNET_ERR_RESOURCE, "gasnet_attach: the segment is nearer than %zu bytes above the heap",
                              (size_t)minheapoffset);
    switch (gasnet_c_new(&job->node, setup, (gasnet_c_memory){ job->segment.base })) {
    case 0:
        break;
    case 2:
        return gasnetl_refuse(GASNET_ERR_RESOURCE, "gasnet_attach: there is no memory for the messages of %u nodes",
                              job->nodes);
    default:
        return gasnetl_refuse(GASNET_ERR_BAD_ARG, "gasnet_attach: a limit of the endpoint is broken");
    }
    if (gasnetl_collectives_open(job))
        return GASNET_OK;
    gasnet_c_free(&job->node);
    return gasnetl_refuse(GASNET_ERR_RESOURCE, "gasnet_attach: there is no memory for collectives");
}

/* Opens the segment, and fills it. All nodes' segments are as long as the longest, with the layer's part behind it. */
static int open_endpoint(struct gasnetl_job *job, uintptr_t minheapoffset) {
    uintptr_t longest = 0;
    for (int node = 0; node < job->nodes; node++)
        if (job->segment.sizes[node] > longest)
            longest = job->segment.sizes[node];
    job->segment.stage = longest;
    const gasnet_c_setup setup = { .job = gasnetl_control_job(&job->control),
                                   .segment = longest + GASNETL_OWN,
                                   .resend = LAST_RESORT * (job->config.resend / 1000 + 1),
                                   .nodes = job->nodes,
                                   .me = job->me,
                                   .credits = (uint16_t)job->progress.credits };
    if (!gasnetl_segment_open(&job->segment, setup.segment))
        return gasnetl_refuse(GASNET_ERR_RESOURCE,
                              "gasnet_attach: the system has no segment of %zu bytes: set GASNET_MAX_SEGSIZE to less "
                              "on all nodes",
                              (size_t)setup.segment);
    int code = fill_segment(job, &setup, minheapoffset);
    if (code != GASNET_OK)
        gasnetl_segment_close(&job->segment, setup.segment);
    return code;
}

/* Has the turn, which it gives away while it waits for the others. */
static int attach(struct gasnetl_job *job, uintptr_t segsize, uintptr_t minheapoffset) {
    tell_most(job, segsize);
    gasnetl_atomics_start(&job->atomics, &job->messages, job->nodes);
    gasnetl_packs_start(&job->packs, &job->messages);
    gasnetl_collectives_start(job);
    job->segment.size = segsize;
    gasnetl_recovery_start(job);
    gasnetl_exchange_sizes(job);
    gasnetl_recovery_open(job);
    int code = open_endpoint(job, minheapoffset);
    if (code != GASNET_OK)
        return code;
    gasnetl_exchange_bases(job);
    gasnetl_meet(job);
    job->attached = true;
    if (job->config.has_thread)
        gasnetl_progress_thread_start(job);
    return GASNET_OK;
}

int gasnet_attach(gasnet_handlerentry_t *table, int numentries, uintptr_t segsize, uintptr_t minheapoffset) {
    struct gasnetl_job *job = &gasnetl_job;
    if (!job->initialised)
        return gasnetl_refuse(GASNET_ERR_NOT_INIT, "gasnet_attach is called before gasnet_init");
    if (job->attached) /* the calling thread may have the turn, in a handler */
        return judge_attach(job, segsize);
    gasnetl_take_turn(&job->turns);
    gasnetl_thread.stack = (struct gasnetl_stack){ "gasnet_attach", gasnetl_clock(), 0, 0 };
    int code = judge_attach(job, segsize);
    if (code == GASNET_OK) {
        job->attaches = true;
        code = gasnetl_register(&job->messages, table, numentries);
        if (code == GASNET_OK)
            code = attach(job, segsize, minheapoffset);
        job->attaches = false;
    }
    gasnetl_give_turn(&job->turns);
    return code;
}

/* ---- Queries. */

gasnet_node_t gasnet_mynode(void) { return gasnetl_job.me; }

gasnet_node_t gasnet_nodes(void) { return gasnetl_job.nodes; }

char *gasnet_getenv(const char *s) { return getenv(s); }

uintptr_t gasnet_getMaxLocalSegmentSize(void) { return gasnetl_job.segment.most; }

uintptr_t gasnet_getMaxGlobalSegmentSize(void) { return gasnet_getMaxLocalSegmentSize(); }

int gasnet_getSegmentInfo(gasnet_seginfo_t *seginfo_table, int numentries) {
    const struct gasnetl_job *job = &gasnetl_job;
    if (!job->attached && !gasnetl_another_ends())
        return gasnetl_refuse(GASNET_ERR_NOT_INIT, "gasnet_getSegmentInfo is called %s", gasnetl_out_of_turn());
    if (!seginfo_table || numentries < 0)
        return gasnetl_refuse(GASNET_ERR_BAD_ARG, "gasnet_getSegmentInfo: there is no table");
    for (int node = 0; node < numentries && node < job->nodes; node++)
        seginfo_table[node] = (gasnet_seginfo_t){ job->segment.bases[node], job->segment.sizes[node] };
    return GASNET_OK;
}

int gasnet_set_waitmode(int wait_mode) {
    if (!gasnetl_job.initialised)
        return gasnetl_refuse(GASNET_ERR_NOT_INIT, "gasnet_set_waitmode is called before gasnet_init");
    if (wait_mode != GASNET_WAIT_SPIN && wait_mode != GASNET_WAIT_BLOCK && wait_mode != GASNET_WAIT_SPINBLOCK)
        return gasnetl_refuse(GASNET_ERR_BAD_ARG, "gasnet_set_waitmode: %d is no mode", wait_mode);
    atomic_store_explicit(&gasnetl_job.progress.wait_mode, wait_mode, memory_order_relaxed);
    return GASNET_OK;
}
