#include "exit.h"

#include <inttypes.h>
#include <signal.h>
#include <stdio.h>
#include <stdlib.h>
#include <unistd.h>

#include "errors.h"
#include "interrupts.h"
#include "job.h"
#include "runner.h"

enum {
    AGAIN = 20000,  /* microseconds between two tellings */
    QUIET = 300000, /* of a silence after which nobody lacks an answer of ours */
    NAP = 2000,     /* of a sleep */
    SECOND = 1000000,
    LAST = 5,     /* seconds beyond its times in which an end in a signal's handler is over */
    QUIT = 500000 /* for the client's handler of SIGQUIT, where the layer's thread raised it */
};

static bool are_all_set(const struct gasnetl_job *job, const bool *flags) {
    for (uint16_t node = 0; node < job->nodes; node++)
        if (node != job->me && !flags[node])
            return false;
    return true;
}

static bool knows_or_is_gone(const struct gasnetl_job *job, uint16_t node) {
    return job->control.knows_we_left[node] || job->peers.of[node].is_refused;
}

/* Whether each peer ends, or knows that it is to, or is gone. */
static bool all_know(const struct gasnetl_job *job) {
    for (uint16_t node = 0; node < job->nodes; node++)
        if (node != job->me && !job->control.has_left[node] && !knows_or_is_gone(job, node))
            return false;
    return true;
}

/* Whether each peer knows that this node ended, or its own process is gone. */
static bool all_heard(const struct gasnetl_job *job) {
    for (uint16_t node = 0; node < job->nodes; node++)
        if (node != job->me && !knows_or_is_gone(job, node))
            return false;
    return true;
}

/* Tells the peers of the end, and serves them, until the time is over, or all that is asked of them came. */
static bool serve_to_end(struct gasnetl_job *job, bool forced, uint64_t time) {
    uint64_t begun = gasnetl_clock(), told = 0, heard = begun;
    gasnetl_thread.stack.call = "gasnet_exit";
    gasnetl_thread.stack.since = begun;
    for (;;) {
        uint64_t now = gasnetl_clock();
        bool left = are_all_set(job, job->control.has_left);
        if (forced ? all_know(job) : left && (all_heard(job) || now - heard > QUIET))
            return true;
        if (now - begun > time)
            return false;
        if (now - told >= AGAIN) {
            gasnetl_tell_end(job, forced);
            told = now;
        }
        if (gasnetl_poll(job, 64))
            heard = now;
        else
            gasnetl_sleep(&job->turns, job->network.socket, NAP);
    }
}

static void tell_counts(const struct gasnetl_job *job) {
    const struct gasnetl_network *network = &job->network;
    fprintf(stderr,
            "gasnet: node %u: sent %" PRIu64 ", resent %" PRIu64 ", unsent %" PRIu64 ", received %" PRIu64
            ", strays %" PRIu64 ", unsealed %" PRIu64 "\n",
            job->me, network->sent, job->progress.resent, network->unsent, network->received, network->strays,
            network->unsealed);
    gasnetl_recovery_tell(job);
}

/* How this node leaves the job. */
struct leaving {
    int status;
    bool is_forced;   /* all nodes end at once */
    bool is_returned; /* the client returned from main, or called exit */
    bool is_signal;   /* a handler of the client's for a signal calls, which may have interrupted the C library too */
    bool is_cut;      /* a call of the layer is interrupted, by a signal or by another thread: it is in between */
};

/* Whether a signal interrupted this thread. SIGQUIT, which the layer raises as it ends the job, interrupts nothing. */
static bool is_interrupted(const struct gasnetl_job *job) {
    const struct gasnetl_thread *self = &gasnetl_thread;
    return !self->is_own && (job->ender == self || !self->ends_itself) && gasnetl_is_in_signal();
}

/* Says who ends the others, and which of them is the first that didn't end by itself. */
static void tell_waiting(const struct gasnetl_job *job, const struct leaving *leaving) {
    uint16_t first = 0;
    while (first == job->me || job->control.has_left[first])
        first++;
    const char *how = leaving->is_returned ? "returned, or called exit(0), and ends the others with status 76"
                                           : "called gasnet_exit(0), and ends the others";
    fprintf(stderr, "gasnet: node %u %s: node %u hadn't called it after %" PRIu64 " s (GASNET_EXIT_TIMEOUT)\n", job->me,
            how, first, job->config.exit_timeout / SECOND);
}

/* Waits for the others, and ends them where they don't end by themselves. A client that calls gasnet_exit(0) may
 * mean that; one that returned without it was waited for in vain. */
static void end_with_others(struct gasnetl_job *job, struct leaving *leaving) {
    const bool forced = leaving->is_forced;
    if (serve_to_end(job, forced, forced ? job->config.end_timeout : job->config.exit_timeout) || forced)
        return;
    if (!are_all_set(job, job->control.has_left)) {
        tell_waiting(job, leaving);
        if (leaving->is_returned)
            job->control.code = leaving->status = GASNETL_LEFT;
    }
    serve_to_end(job, true, job->config.end_timeout);
}

/* Begins the end. The thread has the turn then, unless whoever has it never gives it: the end interrupts that one, most
 * often in a handler of the client's, behind all that it did before. False where another thread ends the process. */
static bool begin_end(struct gasnetl_job *job, struct leaving *leaving) {
    struct gasnetl_thread *self = &gasnetl_thread, *nobody = NULL;
    if (gasnetl_another_ends())
        return false;
    leaving->is_cut = self->has_turn && !self->token && !self->ends_itself;
    if (!self->has_turn && !gasnetl_take_last_turn(&job->turns)) {
        leaving->is_cut = true;
        (void)atomic_load_explicit(&job->messages.runs_handler, memory_order_acquire);
    }
    return atomic_compare_exchange_strong(&job->ender, &nobody, self);
}

/* The endpoint gets no further event. */
static void detach(struct gasnetl_job *job) {
    job->attached = false;
    job->control.is_meeting = false;
}

/* A signal's handler ends the process in time, also where what it calls waits for what it interrupted. */
static void bound_end(const struct gasnetl_job *job, const struct leaving *leaving) {
    const uint64_t time = leaving->is_forced ? 0 : job->config.exit_timeout + job->config.end_timeout;
    gasnetl_end_late((unsigned)((time + job->config.end_timeout) / SECOND) + LAST, leaving->status);
}

/* Leaves the job. It is done once; whatever the thread calls after it finds the job left. Nothing is freed: the
 * process ends, and what a signal interrupted may have the heap in hand. False where another thread ends the
 * process: this one is to wait for that. */
static bool leave(struct gasnetl_job *job, struct leaving *leaving) {
    if (job->ender == &gasnetl_thread || !job->initialised)
        return true;
    pthread_setcancelstate(PTHREAD_CANCEL_DISABLE, NULL); /* nobody else would end the process */
    if (!begin_end(job, leaving))
        return false;
    if (leaving->is_signal)
        bound_end(job, leaving);
    gasnetl_progress_thread_end(job);
    job->control.code = leaving->status;
    if (leaving->is_cut) {
        gasnetl_network_forget(&job->network);
        gasnetl_seals_part(&job->network.seals);
    }
    if (leaving->is_signal)
        job->network.seals.is_fixed = true;
    if (gasnetl_thread.token || leaving->is_cut || leaving->is_signal)
        detach(job); /* its message is never delivered, or its call never ends, or the endpoint may want memory */
    if (!gasnetl_thread.is_own && !leaving->is_signal) /* exit flushes the others: a thread may hold one, as it reads */
        fflush(stdout);
    if (job->nodes > 1 && !job->network.is_lost)
        end_with_others(job, leaving);
    if (job->config.tells_counts)
        tell_counts(job);
    if (job->config.tells_counts && job->config.has_thread)
        gasnetl_progress_thread_tell(job);
    detach(job);
    gasnetl_network_close(&job->network);
    if (leaving->status)
        gasnetl_bootstrap_abort(&job->start, leaving->status);
    gasnetl_bootstrap_end(&job->start);
    gasnetl_give_turn(&job->turns);
    job->is_left = true;
    return true;
}

/* Waits for the end, which another thread brings, though this one called exit. A C library may let that thread's exit
 * wait for this one's. So this one goes on, a second after the job was left. */
static void wait_in_exit(struct gasnetl_job *job) {
    gasnetl_give_turn(&job->turns);
    while (!job->is_left)
        usleep(AGAIN);
    sleep(1);
}

/* Whether this process is the node, or isn't one yet. A child that the client forked is none: its parent is. */
static bool is_node(const struct gasnetl_job *job) { return !job->process || job->process == getpid(); }

static void at_exit(int status, void *nothing) {
    struct leaving leaving = { .status = status, .is_forced = status != 0, .is_returned = true };
    leaving.is_signal = is_interrupted(&gasnetl_job);
    (void)nothing;
    if (is_node(&gasnetl_job) && !leave(&gasnetl_job, &leaving))
        wait_in_exit(&gasnetl_job);
}

/* Waits for the end that another thread brings. Where this one is in a signal's handler, that thread may wait for
 * what the signal interrupted. */
static _Noreturn void stay_out(struct gasnetl_job *job, struct leaving *leaving) {
    leaving->status = job->control.code;
    if (leaving->is_signal)
        bound_end(job, leaving);
    gasnetl_stay_out(&job->turns);
}

/* Leaves the job and ends the process, or waits for that where another thread does it. A child that the client
 * forked ends alone. A signal's handler ends it without exit, whose functions may wait for what it interrupted. */
static _Noreturn void end_process(struct gasnetl_job *job, int status, bool forced) {
    struct leaving leaving = { .status = status, .is_forced = forced, .is_signal = is_interrupted(job) };
    if (is_node(job) && !leave(job, &leaving))
        stay_out(job, &leaving);
    if (leaving.is_signal)
        _exit(status);
    if (gasnetl_thread.is_own)
        gasnetl_progress_thread_exits(status);
    exit(status);
}

/* A child that the client forks has no part in the job: its calls are refused, and it keeps no port of the node's. */
static void be_child(void) {
    struct gasnetl_job *job = &gasnetl_job;
    job->attached = false;
    job->is_child = true;
    if (job->network.socket >= 0)
        close(job->network.socket);
    job->network.socket = -1;
}

bool gasnetl_exit_start(struct gasnetl_job *job) {
    job->process = getpid();
    return !pthread_atfork(NULL, NULL, be_child) && !on_exit(at_exit, NULL);
}

void gasnetl_end_all(struct gasnetl_job *job, int status) {
    gasnetl_thread.ends_itself = true;
    end_process(job, status, true);
}

void gasnetl_end_within(struct gasnetl_job *job, int status) { end_process(job, status, true); }

/* Raises SIGQUIT on a thread of the client's, which may end the process meanwhile: the layer's own thread leaves it
 * the turn and the time for that. */
static void send_quit(struct gasnetl_job *job) {
    job->progress.keeps = false;
    gasnetl_give_turn(&job->turns);
    kill(getpid(), SIGQUIT);
    for (uint64_t begun = gasnetl_clock(); gasnetl_clock() - begun < QUIT && !job->ender;)
        usleep(1000);
}

void gasnetl_raise_quit(struct gasnetl_job *job) {
    gasnetl_thread.ends_itself = true;
    struct sigaction action;
    if (sigaction(SIGQUIT, NULL, &action) || action.sa_handler == SIG_DFL || action.sa_handler == SIG_IGN)
        return;
    if (atomic_exchange(&job->is_quit, true))
        return;
    if (gasnetl_thread.is_own)
        send_quit(job);
    else
        raise(SIGQUIT); /* the client's handler may call gasnet_exit */
}

void gasnetl_end_by_peer(struct gasnetl_job *job, int status) {
    gasnetl_runner_tell(GASNETL_ENDED_BY_PEER, job->me);
    gasnetl_raise_quit(job);
    end_process(job, status, true);
}

void gasnet_exit(int exitcode) { end_process(&gasnetl_job, exitcode, exitcode != 0); }
