/* What a node does while its client computes (GASNET_PROGRESS=thread): the first argument says which way it is tried.
 * With GASNET_PROGRESS=poll the same has to happen, but later. */
#define GASNET_SEQ 1
#include <dirent.h>
#include <pthread.h>
#include <signal.h>
#include <sys/wait.h>
#include <time.h>
#include <unistd.h>

#include "check.h"

enum { COUNT = 128, COUNTED = 129, SEGMENT = 1 << 20, LENGTH = 100000, ASKED = 20, WORD = SEGMENT - 8 };

static const double work = 2; /* seconds for which node 1 computes */
static double since;          /* when gasnet_init was over */
static gex_AD_t words;
static pthread_t client;
static int ran, counted;

static double now(void) {
    struct timespec time;
    clock_gettime(CLOCK_MONOTONIC, &time);
    return (double)time.tv_sec + (double)time.tv_nsec * 1e-9;
}

static bool has_thread(void) {
    const char *progress = getenv("GASNET_PROGRESS");
    return !progress || strcmp(progress, "poll");
}

/* Makes no call of GASNet. */
static void compute(double seconds) {
    for (double begun = now(); now() - begun < seconds;)
        continue;
}

/* A request's handler runs on the client's thread. */
static void count(gasnet_token_t token) {
    CHECK(pthread_equal(pthread_self(), client));
    ran++;
    GASNET_SAFE(gasnet_AMReplyShort0(token, COUNTED));
}

static void is_counted(gasnet_token_t token) {
    (void)token;
    CHECK(pthread_equal(pthread_self(), client));
    counted++;
}

/* What was begun then came to its end while node 1 computes. */
static void in_time(const char *what, double begun) {
    double took = now() - begun;
    if (has_thread() && took > work / 4)
        fprintf(stderr, "node %d: %s took %.3f s while node 1 computed\n", me, what, took);
    CHECK(!has_thread() || took <= work / 4);
}

static void move(void) {
    static unsigned char to[LENGTH], from[LENGTH];
    const size_t place = (size_t)me * LENGTH;
    fill(to, LENGTH, me, 1);
    double begun = now();
    gasnet_put(1, at(1, place), to, LENGTH);
    in_time("a put", begun);
    begun = now();
    gasnet_get(from, 1, at(1, place), LENGTH);
    in_time("a get", begun);
    CHECK(is_filled(from, LENGTH, me, 1));
}

static void add(void) {
    uint64_t was;
    double begun = now();
    gex_Event_Wait(gex_AD_OpNB_U64(words, &was, 1, at(1, WORD), GEX_OP_FADD, 1, 0, 0));
    in_time("an atomic", begun);
}

/* All notified the barrier, and node 1 computes. */
static void serve(void) {
    gasnet_barrier_notify(0, GASNET_BARRIERFLAG_ANONYMOUS);
    if (me == 1)
        compute(work);
    double begun = now();
    CHECK(gasnet_barrier_wait(0, GASNET_BARRIERFLAG_ANONYMOUS) == GASNET_OK);
    in_time("a barrier", begun);
    barrier();
    if (me == 1) {
        compute(work);
    } else {
        move();
        add();
    }
    barrier();
    CHECK(me != 1 || *(uint64_t *)(void *)at(1, WORD) == (uint64_t)nodes - 1);
}

/* Requests come to a node that computes: their handlers run as it polls. */
static void keep(void) {
    barrier();
    if (me == 1) {
        const int before = ran; /* some may have come in the barrier */
        compute(work / 2);
        CHECK(ran == before);
    } else {
        for (int i = 0; i < ASKED; i++)
            GASNET_SAFE(gasnet_AMRequestShort0(1, COUNT));
        GASNET_BLOCKUNTIL(counted == ASKED);
    }
    barrier();
    CHECK(ran == (me == 1 ? ASKED * (nodes - 1) : 0));
}

/* A reply comes to a node that computes. */
static void keep_reply(void) {
    barrier();
    counted = 0;
    if (!me) {
        GASNET_SAFE(gasnet_AMRequestShort0(1, COUNT));
        compute(work / 4);
        CHECK(counted == 0);
        GASNET_BLOCKUNTIL(counted == 1);
    }
    barrier();
}

/* Node 1 computes as soon as it is attached. No other one waits for that in gasnet_attach. */
static void attach(void) {
    double took = now() - since;
    if (me == 1)
        sleep((unsigned)work);
    else if (took > work / 2)
        fprintf(stderr, "node %d was in gasnet_attach for %.3f s\n", me, took);
    CHECK(me == 1 || took <= work / 2);
    barrier();
}

/* A barrier, work and a barrier take as long as the work. */
static void phases(void) {
    double begun = now();
    barrier();
    compute(work);
    barrier();
    CHECK(!has_thread() || now() - begun < 1.5 * work);
}

/* The others compute for three seconds, and one of them waits for them. */
static void be_silent(void) {
    barrier();
    if (me)
        compute(1.5 * work);
    barrier();
}

/* All poll without a pause. */
static void poll(void) {
    for (double begun = now(); now() - begun < work / 4;)
        gasnet_AMPoll();
    barrier();
}

static int threads_of_process(void) {
    int threads = 0;
    DIR *tasks = opendir("/proc/self/task");
    while (tasks && readdir(tasks))
        threads++;
    closedir(tasks);
    return threads - 2; /* but for `.` and `..` */
}

/* A child that the client forks has no thread of the layer, and the node goes on. */
static void spawn(void) {
    int how = 1;
    pid_t child = fork();
    if (!child)
        exit(threads_of_process() == 1 ? 0 : 1);
    CHECK(child > 0 && waitpid(child, &how, 0) == child && !how);
    serve();
}

static void quit(int signal) {
    (void)signal;
    (void)!write(1, "quit\n", 5);
    CHECK(pthread_equal(pthread_self(), client));
    gasnet_exit(9);
}

/* Node 0 ends the job while the others compute. */
static void end(bool watches) {
    if (watches)
        signal(SIGQUIT, quit);
    barrier();
    if (!me)
        gasnet_exit(5);
    compute(60);
    CHECK(false);
}

int main(int argc, char **argv) {
    gasnet_handlerentry_t table[] = { { COUNT, count }, { COUNTED, is_counted } };
    const char *way = argc > 1 ? argv[1] : "";
    client = pthread_self();
    GASNET_SAFE(gasnet_init(&argc, &argv));
    since = now();
    GASNET_SAFE(gasnet_attach(table, 2, SEGMENT, 0));
    me = gasnet_mynode();
    nodes = gasnet_nodes();
    GASNET_SAFE(gasnet_getSegmentInfo(segments, nodes));
    if (!strcmp(way, "attach"))
        attach();
    gex_AD_Create(&words, NULL, GEX_DT_U64, GEX_OP_FADD, 0);
    if (!strcmp(way, "serve"))
        serve();
    if (!strcmp(way, "keep")) {
        keep();
        keep_reply();
    }
    if (!strcmp(way, "phases"))
        phases();
    if (!strcmp(way, "silent"))
        be_silent();
    if (!strcmp(way, "poll"))
        poll();
    if (!strcmp(way, "fork"))
        spawn();
    if (!strcmp(way, "end") || !strcmp(way, "quit"))
        end(!strcmp(way, "quit"));
    gasnet_exit(0);
}
