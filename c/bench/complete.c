/* Node 1 computes for some seconds without a call. How long the slowest took of what the others ask of it meanwhile:
 * complete put|large|get|atomic|note|peer|stop [SECONDS]. put, get and atomic are of 8 bytes, large is a put of 1 MiB.
 * note is a barrier that node 1 notified before it computes, peer one that it notifies behind its work. At stop it
 * stops itself by a signal. */
#include "nodes.h"

#include <signal.h>

enum { TIMES = 20, WORD = 64, FLAG = 128 /* places in each segment: the atomic's word, and whether node 1 computes */ };

static gex_AD_t domain;
static char near[MIB];

static void put_small(void) { gasnet_put(1, far(1, 0), near, 8); }

static void put_large(void) { gasnet_put_bulk(1, far(1, 0), near, sizeof near); }

static void get_small(void) { gasnet_get(near, 1, far(1, 0), 8); }

static void add(void) {
    uint64_t was;
    gex_Event_Wait(gex_AD_OpNB_U64(domain, &was, 1, far(1, WORD), GEX_OP_FADD, 1, 0, 0));
}

static void wait_for_notes(void) { GASNET_SAFE(gasnet_barrier_wait(0, GASNET_BARRIERFLAG_ANONYMOUS)); }

static const struct {
    const char *name;
    void (*ask)(void);
} operations[] = { { "put", put_small }, { "large", put_large }, { "get", get_small }, { "atomic", add } };

static void (*operation(const char *name))(void) {
    for (size_t i = 0; i < sizeof operations / sizeof *operations; i++)
        if (!strcmp(name, operations[i].name))
            return operations[i].ask;
    return NULL;
}

/* The seconds of the slowest of several, which begin while node 1 computes. */
static double slowest(void (*ask)(void), double time) {
    double most = 0;
    for (int i = 0; i < TIMES; i++) {
        usleep((useconds_t)(time / (TIMES + 4) * 1e6));
        double begun = seconds();
        ask();
        double took = seconds() - begun;
        most = took > most ? took : most;
    }
    return most;
}

/* The same of one barrier. */
static double barrier_time(double time) {
    usleep((useconds_t)(time / TIMES * 1e6)); /* node 1 is still telling others */
    double begun = seconds();
    gasnet_barrier_notify(0, GASNET_BARRIERFLAG_ANONYMOUS);
    wait_for_notes();
    return seconds() - begun;
}

/* Tells the others that this node makes no call from now on. */
static void tell_others(void) {
    const int yes = 1;
    for (int node = 0; node < nodes; node++)
        if (node != me)
            gasnet_put(node, far(node, FLAG), (void *)(uintptr_t)&yes, sizeof yes);
}

static void wait_for_flag(void) {
    volatile int *flag = far(me, FLAG);
    GASNET_BLOCKUNTIL(*flag);
}

static void be_busy(const char *what, double time) {
    int notes = !strcmp(what, "note");
    if (notes)
        gasnet_barrier_notify(0, GASNET_BARRIERFLAG_ANONYMOUS);
    tell_others();
    if (!strcmp(what, "stop"))
        raise(SIGSTOP);
    compute(time);
    if (notes)
        wait_for_notes();
}

int main(int argc, char **argv) {
    const char *what = argc > 1 ? argv[1] : "put";
    double time = argument(argc, argv, 2, 5);
    void (*ask)(void) = operation(what);
    start(NULL, 0, 2 * MIB);
    gex_AD_Create(&domain, NULL, GEX_DT_U64, GEX_OP_FADD, 0);
    barrier();
    barrier(); /* all have attached, so no notification of this one came too early */
    if (me != 1)
        wait_for_flag();
    if (me == 1)
        be_busy(what, time);
    else if (ask && !me)
        printf("%s %.6f s\n", what, slowest(ask, time));
    else if (!strcmp(what, "note"))
        printf("note %.6f s\n", barrier_time(time));
    barrier();
    gasnet_exit(0);
}
