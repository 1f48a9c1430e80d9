/* How a job ends: the first argument says in which way. */
#define GASNET_SEQ 1
#include <signal.h>
#include <sys/wait.h>
#include <time.h>
#include <unistd.h>

#include "check.h"

enum { EXIT = 128 };

static void exit_handler(gasnet_token_t token, gasnet_handlerarg_t status) {
    (void)token;
    gasnet_exit(status);
}

static void quit(int signal) {
    (void)signal;
    (void)!write(1, "quit\n", 5);
    gasnet_exit(9);
}

static volatile sig_atomic_t alarm_status;

static void alarmed(int signal) {
    (void)signal;
    gasnet_exit(alarm_status);
}

/* A child that the client forked is no node: it ends in this way, and its status is its own. */
static void end_child(const char *way) {
    unsigned char byte = 0;
    if (!strcmp(way, "fork"))
        exit(3);
    if (!strcmp(way, "fork-exit"))
        gasnet_exit(3);
    gasnet_put(0, at(0, 0), &byte, 1); /* "fork-call" */
    exit(0);
}

/* Node 0 forks one, and the job goes on. */
static void fork_child(const char *way) {
    int how = 0;
    pid_t child = me ? -1 : fork();
    if (!child)
        end_child(way);
    CHECK(me || (waitpid(child, &how, 0) == child && WIFEXITED(how)));
    CHECK(me || WEXITSTATUS(how) == (strcmp(way, "fork-call") ? 3 : 70));
    for (time_t begun = time(NULL); time(NULL) - begun < 2;)
        gasnet_AMPoll();
    barrier();
}

/* All poll for some seconds, and nobody asks anybody. */
static void idle(int seconds) {
    for (time_t begun = time(NULL); time(NULL) - begun < seconds;)
        gasnet_AMPoll();
    barrier();
    gasnet_exit(0);
}

static _Noreturn void poll_on(void) {
    for (;;)
        GASNET_BLOCKUNTIL(false);
}

/* One node ends, and the others poll; or all do, by a signal that comes while a call sleeps. */
static void end_one(const char *way, int status, bool is_last) {
    if ((!strcmp(way, "one") || !strcmp(way, "quit")) && is_last)
        gasnet_exit(status);
    if (!strcmp(way, "handler") && is_last)
        GASNET_SAFE(gasnet_AMRequestShort1(0, EXIT, status));
    if (!strcmp(way, "signal") && is_last)
        raise(status);
    if (!strcmp(way, "alarm")) {
        alarm_status = status;
        signal(SIGALRM, alarmed);
        ualarm(200000, 0);
    }
    poll_on();
}

int main(int argc, char **argv) {
    gasnet_handlerentry_t table[] = { { EXIT, exit_handler } };
    const char *way = argc > 1 ? argv[1] : "";
    int status = argc > 2 ? atoi(argv[2]) : 0;
    if (!strcmp(way, "quit") || !strcmp(way, "watch"))
        signal(SIGQUIT, quit);
    start(&argc, &argv, table, 1, GASNET_PAGESIZE);
    barrier();
    const bool is_last = me == nodes - 1;
    if (!strcmp(way, "poll") || !strcmp(way, "sleep")) {
        puts("here");
        fflush(stdout);
    }
    if (!strcmp(way, "return"))
        return status;
    if (!strcmp(way, "leave") && is_last) /* the others wait for it */
        return 0;
    if (!strcmp(way, "leave"))
        barrier();
    if (!strncmp(way, "fork", 4))
        fork_child(way);
    if (!strcmp(way, "all") || !strncmp(way, "fork", 4))
        gasnet_exit(status);
    if (!strcmp(way, "idle"))
        idle(status);
    while (!strcmp(way, "sleep"))
        pause();
    end_one(way, status, is_last);
}
