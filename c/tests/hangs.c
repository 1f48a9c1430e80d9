/* Jobs that hang on purpose, for gasnetrun --stacks: tests/stacks.sh asks where their threads wait, and ends them.
 *
 *   hangs barrier      node 1 computes, and enters no barrier
 *   hangs put          node 1 stops itself, and node 0 puts
 *   hangs condition    node 0 waits for what never holds
 *   hangs lock         a thread of node 0 holds a lock for ever, and another wants it
 *   hangs handler      a handler of node 0 doesn't return
 *   hangs messages     node 1 polls not, and node 0 asks it until it has no credit
 *   hangs program      it becomes another program, that ends well after 3 seconds */
#define GASNET_PAR 1
#include <signal.h>
#include <stdatomic.h>
#include <unistd.h>

#include "check.h"

enum { CREDITS = 64, NOTHING = 128, STAY = 129 };

static gasnet_hsl_t lock = GASNET_HSL_INITIALIZER;
static volatile int never;

static void nothing(gasnet_token_t token) { (void)token; }

static void stay(gasnet_token_t token) {
    (void)token;
    for (;;)
        pause();
}

/* It doesn't return to the layer. */
static void compute(void) {
    for (;;)
        pause();
}

static void *hold(void *at) {
    gasnet_hsl_lock(&lock);
    *(atomic_bool *)at = true;
    compute();
    return NULL;
}

static void hang_barrier(void) {
    if (gasnet_mynode() == 1)
        compute();
    gasnet_barrier_notify(0, GASNET_BARRIERFLAG_ANONYMOUS);
    gasnet_barrier_wait(0, GASNET_BARRIERFLAG_ANONYMOUS);
}

static void hang_put(void) {
    gasnet_seginfo_t segments[GASNET_MAXNODES];
    int value = 5;
    GASNET_SAFE(gasnet_getSegmentInfo(segments, gasnet_nodes()));
    if (gasnet_mynode() == 1)
        raise(SIGSTOP);
    usleep(300000);
    gasnet_put(1, segments[1].addr, &value, sizeof value);
}

static void hang_lock(void) {
    static atomic_bool is_held;
    pthread_t thread;
    if (gasnet_mynode() == 1)
        compute();
    CHECK(!pthread_create(&thread, NULL, hold, &is_held));
    while (!is_held)
        usleep(1000);
    gasnet_hsl_lock(&lock);
}

static void hang_messages(void) {
    if (gasnet_mynode() == 1)
        compute();
    for (int i = 0; i < CREDITS; i++)
        GASNET_SAFE(gasnet_AMRequestShort0(1, NOTHING));
}

static void hang_handler(void) {
    if (gasnet_mynode() == 1)
        GASNET_SAFE(gasnet_AMRequestShort0(0, STAY));
    GASNET_BLOCKUNTIL(never);
}

static void become_program(void) { execlp("sleep", "sleep", "3", NULL); }

static void hang_condition(void) { GASNET_BLOCKUNTIL(never); }

int main(int argc, char **argv) {
    static const struct {
        const char *name;
        void (*hang)(void);
    } ways[] = { { "barrier", hang_barrier },     { "put", hang_put },           { "lock", hang_lock },
                 { "condition", hang_condition }, { "messages", hang_messages }, { "handler", hang_handler },
                 { "program", become_program } };
    gasnet_handlerentry_t table[] = { { NOTHING, (void (*)())nothing }, { STAY, (void (*)())stay } };
    GASNET_SAFE(gasnet_init(&argc, &argv));
    GASNET_SAFE(gasnet_attach(table, 2, GASNET_PAGESIZE, 0));
    for (size_t i = 0; i < sizeof ways / sizeof *ways; i++)
        if (argc > 1 && !strcmp(ways[i].name, argv[1]))
            ways[i].hang();
    gasnet_exit(1);
}
