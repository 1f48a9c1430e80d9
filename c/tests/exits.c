/* How a node of several threads ends (GASNET_PAR): the first argument says in which way. */
#define GASNET_PAR 1
#include <pthread.h>
#include <signal.h>
#include <sys/syscall.h>
#include <sys/time.h>
#include <time.h>
#include <unistd.h>

#include "check.h"

enum {
    EXIT = 128,
    LOCK = 129,
    SOON = 100000,
    SETTLED = 100,
    LATER = 3500
}; /* one in microseconds, two in milliseconds */

static gasnet_hsl_t lock = GASNET_HSL_INITIALIZER;

/* The wall clock as it stands before it is set back by an hour: nothing waits for a time of it. */
int clock_gettime(clockid_t clock, struct timespec *time) {
    enum { HOUR = 3600 };
    int code = (int)syscall(SYS_clock_gettime, clock, time);
    if (!code && clock == CLOCK_REALTIME)
        time->tv_sec += HOUR;
    return code;
}

static void exit_handler(gasnet_token_t token) {
    (void)token;
    gasnet_exit(0);
}

static void lock_handler(gasnet_token_t token) {
    (void)token;
    gasnet_hsl_lock(&lock);
    gasnet_hsl_unlock(&lock);
}

static void *exit_here(void *nothing) {
    gasnet_exit(0);
    return nothing;
}

/* A request to the node itself, whose handler runs in the call. */
static void *ask(void *handler) {
    GASNET_SAFE(gasnet_AMRequestShort0(me, (gasnet_handler_t)(uintptr_t)handler));
    return NULL;
}

static void begin(void *(*work)(void *), int handler) {
    pthread_t thread;
    CHECK(!pthread_create(&thread, NULL, work, (void *)(uintptr_t)handler));
    usleep(SOON);
}

static int64_t now(void) {
    struct timespec time;
    clock_gettime(CLOCK_MONOTONIC, &time);
    return (int64_t)time.tv_sec * 1000 + time.tv_nsec / 1000000;
}

static void serve(int milliseconds) {
    for (int64_t begun = now(); now() - begun < milliseconds;) {
        gasnet_AMPoll();
        usleep(1000);
    }
}

static void alarmed(int signal) {
    (void)signal;
    gasnet_exit(0);
}

/* The signal comes anywhere in a poll, also as it takes or gives away its turn. */
static _Noreturn void poll_until_signal(int microseconds) {
    const struct itimerval once = { .it_value.tv_usec = microseconds };
    signal(SIGALRM, alarmed);
    setitimer(ITIMER_REAL, &once, NULL);
    for (;;)
        gasnet_AMPoll();
}

/* The signal comes while the thread has the heap's lock: what ends the process mustn't ask for it. Another thread
 * makes the C library lock at all. */
static void *idle(void *nothing) {
    sigset_t all;
    sigfillset(&all);
    pthread_sigmask(SIG_BLOCK, &all, NULL);
    for (;;)
        pause();
    return nothing;
}

static _Noreturn void allocate_until_signal(int microseconds) {
    enum { BLOCKS = 64 };
    const struct itimerval once = { .it_value.tv_usec = microseconds };
    void *blocks[BLOCKS];
    begin(idle, 0);
    signal(SIGALRM, alarmed);
    setitimer(ITIMER_REAL, &once, NULL);
    for (;;) {
        for (size_t i = 0; i < BLOCKS; i++)
            blocks[i] = malloc(2000 + i * 37);
        for (size_t i = 0; i < BLOCKS; i++)
            free(blocks[i]);
    }
}

static void *read_input(void *nothing) {
    getchar();
    return nothing;
}

/* Another thread holds a stream, as it waits for input that never comes. */
static _Noreturn void exit_beside_reader(void) {
    int ends[2];
    CHECK(!pipe(ends) && dup2(ends[0], 0) == 0);
    begin(read_input, 0);
    gasnet_exit(0);
    abort();
}

static void *end_later(void *nothing) {
    usleep(SOON);
    return nothing;
}

/* No thread of the client's is left, and nobody called exit. */
static _Noreturn void end_threads(void) {
    begin(end_later, 0);
    pthread_exit(NULL);
}

int main(int argc, char **argv) {
    gasnet_handlerentry_t table[] = { { EXIT, exit_handler }, { LOCK, lock_handler } };
    const char *way = argc > 1 ? argv[1] : "";
    unsigned char byte = 1;
    start(&argc, &argv, table, 2, GASNET_PAGESIZE);
    if (!strcmp(way, "signal"))
        poll_until_signal(atoi(argv[2]));
    if (!strcmp(way, "reader"))
        exit_beside_reader();
    if (!strcmp(way, "malloc"))
        allocate_until_signal(atoi(argv[2]));
    barrier();
    if (!strcmp(way, "threads"))
        end_threads();
    serve(SETTLED); /* what the others lack of the barrier goes again */
    if (me) {       /* the others go on longer than it takes to find a peer gone, and then end too */
        serve(!strcmp(way, "two") ? LATER : 5 * SETTLED);
        gasnet_exit(0);
    }
    if (!strcmp(way, "two")) { /* threads that call gasnet_exit */
        begin(exit_here, 0);
        gasnet_exit(0);
    }
    if (!strcmp(way, "return")) { /* one of them returns from main */
        begin(exit_here, 0);
        return 0;
    }
    if (!strcmp(way, "handler")) { /* another thread's call comes while a handler ends the job */
        begin(ask, EXIT);
        gasnet_put(0, at(0, 0), &byte, 1);
    }
    if (!strcmp(way, "lock")) { /* a handler waits for a lock of the thread that ends the job */
        gasnet_hsl_lock(&lock);
        begin(ask, LOCK);
        gasnet_exit(3);
    }
    CHECK(false);
}
