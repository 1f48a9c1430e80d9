/* What a careless client of several threads does (GASNET_PAR): the first argument says what. */
#define GASNET_PAR 1
#include <fcntl.h>
#include <pthread.h>
#include <signal.h>
#include <sys/time.h>
#include <sys/wait.h>
#include <time.h>
#include <unistd.h>

#include "check.h"

enum { FORK = 128, EXIT = 129, MISUSE = 70, THREADS = 4, ROUNDS = 30, SOON = 3000, COMPUTES = 3, LATE = 20 };

static int64_t now(void) {
    struct timespec time;
    clock_gettime(CLOCK_MONOTONIC, &time);
    return (int64_t)time.tv_sec * 1000 + time.tv_nsec / 1000000;
}

static void join_all(const pthread_t *threads) {
    for (int i = 0; i < THREADS; i++)
        CHECK(!pthread_join(threads[i], NULL));
}

static void begin_all(pthread_t *threads, void *(*work)(void *), void *at) {
    for (int i = 0; i < THREADS; i++)
        CHECK(!pthread_create(&threads[i], NULL, work, at));
}

/* ---- Threads that are cancelled as they wait, or within a call. */

static void *wait_forever(void *nothing) {
    GASNET_BLOCKUNTIL(nothing);
    return nothing;
}

static unsigned char got[THREADS];

static void *get_forever(void *nothing) {
    for (;;) {
        gasnet_get(got, next(), at(next(), 0), 1);
        pthread_testcancel();
    }
    return nothing;
}

static void cancel_threads(void *(*work)(void *)) {
    pthread_t threads[THREADS];
    for (int round = 0; round < ROUNDS; round++) {
        begin_all(threads, work, NULL);
        usleep(SOON);
        for (int i = 0; i < THREADS; i++)
            CHECK(!pthread_cancel(threads[i]));
        join_all(threads);
    }
}

/* Behind that a node that computes is served by the thread of the layer, as before. */
static void compute_and_put(void) {
    unsigned char byte = 1;
    barrier();
    int64_t begun = now();
    while (!me && now() - begun < COMPUTES * 1000)
        continue;
    if (me) {
        usleep(COMPUTES * 100000);
        gasnet_put(0, at(0, 0), &byte, 1);
        CHECK(now() - begun < COMPUTES * 700);
    }
    barrier();
}

/* ---- A thread that ends in a handler ends the job. */

static void exit_handler(gasnet_token_t token) {
    (void)token;
    pthread_exit(NULL);
}

static void *ask_own(void *nothing) {
    gasnet_AMRequestShort0((gasnet_node_t)me, EXIT);
    return nothing;
}

static _Noreturn void end_in_handler(void) {
    pthread_t thread;
    CHECK(!pthread_create(&thread, NULL, ask_own, NULL) && !pthread_join(thread, NULL));
    for (;;)
        gasnet_AMPoll();
}

/* ---- Threads that begin at once. */

static void *init_here(void *count) {
    if (gasnet_init(NULL, NULL) == GASNET_OK)
        __atomic_fetch_add((int *)count, 1, __ATOMIC_SEQ_CST);
    return NULL;
}

static void *attach_here(void *count) {
    if (gasnet_attach(NULL, 0, GASNET_PAGESIZE, 0) == GASNET_OK)
        __atomic_fetch_add((int *)count, 1, __ATOMIC_SEQ_CST);
    return NULL;
}

/* Of the threads that call gasnet_init, and then gasnet_attach, each time one succeeds. */
static void begin_at_once(void) {
    pthread_t threads[THREADS];
    unsigned char bytes[GASNET_PAGESIZE], came[GASNET_PAGESIZE];
    int inits = 0, attaches = 0;
    begin_all(threads, init_here, &inits);
    join_all(threads);
    begin_all(threads, attach_here, &attaches);
    join_all(threads);
    me = gasnet_mynode();
    nodes = gasnet_nodes();
    CHECK(inits == 1 && attaches == 1);
    GASNET_SAFE(gasnet_getSegmentInfo(segments, nodes));
    fill(bytes, sizeof bytes, me, 0);
    barrier();
    gasnet_put(next(), at(next(), 0), bytes, sizeof bytes);
    barrier();
    gasnet_get(came, me, at(me, 0), sizeof came);
    CHECK(is_filled(came, sizeof came, before(), 0));
    barrier();
}

/* ---- Signals: a handler that polls ends the job. */

static void poll_there(int signal) {
    (void)signal;
    gasnet_AMPoll();
}

static void poll_until_signal(void) {
    const struct itimerval often = { { 0, 500 }, { 0, 500 } };
    signal(SIGALRM, poll_there);
    setitimer(ITIMER_REAL, &often, NULL);
    for (;;)
        gasnet_AMPoll();
}

/* ---- Children: one that is forked in a handler, and returns from it, isn't in the call of its parent. */

static pid_t child = -1;

static void fork_handler(gasnet_token_t token) {
    (void)token;
    child = fork();
    if (!child)
        alarm(LATE);
}

/* Node 0 waits for node 1 as its handler runs. */
static void fork_in_handler(void) {
    int how;
    barrier();
    usleep(me ? 30 * SOON : 0);
    if (me)
        GASNET_SAFE(gasnet_AMRequestShort0(0, FORK));
    usleep(me ? 30 * SOON : 0);
    barrier();
    CHECK(me || (waitpid(child, &how, 0) == child && WIFEXITED(how) && WEXITSTATUS(how) == MISUSE));
    barrier();
}

/* ---- Standard streams that are closed as the process starts, and opened behind gasnet_attach, as a daemon does. */

static void start_without_streams(char **argv) {
    for (int i = 0; i < 3; i++)
        close(i);
    execv(argv[0], (char *[]){ argv[0], (char *)(uintptr_t) "open-streams", NULL });
    _exit(1);
}

static void open_streams(void) {
    int nowhere = open("/dev/null", O_RDWR);
    for (int i = 0; i < 3; i++)
        dup2(nowhere, i);
    if (nowhere > 2)
        close(nowhere);
    compute_and_put();
}

int main(int argc, char **argv) {
    gasnet_handlerentry_t table[] = { { FORK, fork_handler }, { EXIT, exit_handler } };
    const char *way = argc > 1 ? argv[1] : "";
    if (!strcmp(way, "streams"))
        start_without_streams(argv);
    if (!strcmp(way, "begin")) {
        begin_at_once();
        gasnet_exit(0);
    }
    start(&argc, &argv, table, COUNT(table), GASNET_PAGESIZE);
    if (!strcmp(way, "open-streams"))
        open_streams();
    else if (!strcmp(way, "cancel-wait"))
        cancel_threads(wait_forever);
    else if (!strcmp(way, "cancel-get"))
        cancel_threads(get_forever);
    else if (!strcmp(way, "signal"))
        poll_until_signal();
    else if (!strcmp(way, "end-in-handler"))
        end_in_handler();
    else if (!strcmp(way, "fork"))
        fork_in_handler();
    else
        CHECK(false);
    compute_and_put();
    gasnet_exit(0);
}
