#include "bootstrap.h"

#include <fcntl.h>
#include <signal.h>
#include <stdio.h>
#include <stdlib.h>
#include <string.h>
#include <sys/prctl.h>
#include <unistd.h>

#include "config.h"
#include "descriptors.h"
#include "hosts.h"
#include "runner.h"

/* Has a description of the pipe that is this node's own, as its signals go to one owner of each. All nodes inherit one.
 * Where the system has no /proc the inherited one it is. */
static int own_pipe(int inherited) {
    char name[40];
    snprintf(name, sizeof name, "/proc/self/fd/%d", inherited);
    int own = gasnetl_above_streams(open(name, O_RDONLY | O_NONBLOCK | O_CLOEXEC));
    if (own < 0)
        return inherited;
    close(inherited);
    return own;
}

/* The node ends with whoever started it: as its parent ends, and as the last writer of the lifeline's pipe does. */
static bool hold_lifeline(void) {
    uint64_t line;
    if (!gasnetl_config_number("GASNET_LIFELINE", 0, 1 << 20, 0, &line))
        return false;
    if (!line)
        return true;
    prctl(PR_SET_PDEATHSIG, SIGKILL);
    int pipe = own_pipe((int)line);
    if (fcntl(pipe, F_SETFD, FD_CLOEXEC) || fcntl(pipe, F_SETOWN, getpid()) || fcntl(pipe, F_SETSIG, SIGKILL) ||
        fcntl(pipe, F_SETFL, O_ASYNC | O_NONBLOCK)) {
        fprintf(stderr,
                "gasnet: GASNET_LIFELINE is %d, which is no pipe: unset it, or start the program by gasnetrun\n",
                (int)line);
        return false;
    }
    char byte;
    if (read(pipe, &byte, 1) == 0) /* its end came already */
        raise(SIGKILL);
    return true;
}

/* Reads the addresses of all nodes. */
static bool read_places(const struct gasnetl_hosts *hosts, struct gasnetl_places *places, uint16_t nodes) {
    struct gasnetl_why why;
    if (gasnetl_places_read(places, nodes, hosts->addresses, &why))
        return true;
    fprintf(stderr, "gasnet: %s is broken: %s; ", hosts->variable, why.text);
    if (hosts->count)
        fprintf(stderr, "set it to a host for each of %u nodes\n", nodes);
    else
        fprintf(stderr, "set it to HOST:PORT,HOST:PORT,.. with one for each of %u nodes\n", nodes);
    return false;
}

static bool is_rank(const struct gasnetl_hosts *hosts, uint64_t rank, uint64_t nodes) {
    const char *variable = getenv("GASNET_NODES") || !hosts->variable ? "GASNET_NODES" : hosts->variable;
    if (rank < nodes)
        return true;
    fprintf(stderr,
            "gasnet: GASNET_RANK is '%d', but by %s the ranks are 0 to %d: set it to one of these, or set %s "
            "for more nodes\n",
            (int)rank, variable, (int)nodes - 1, variable);
    return false;
}

/* Reads what is said of this node, where all nodes are known. */
static bool read_start(struct gasnetl_start *start, const struct gasnetl_hosts *hosts) {
    uint64_t nodes, rank, job, socket;
    const uint64_t none = 1 << 20;
    if (!hosts->count && !getenv("GASNET_NODES")) {
        fprintf(stderr, "gasnet: GASNET_RANK is set, but not how many nodes there are: set GASNET_HOSTS to their "
                        "hosts, or GASNET_NODES to their number and GASNET_ADDRESSES to where they are, or unset "
                        "GASNET_RANK for a job of one node\n");
        return false;
    }
    if (!gasnetl_config_number("GASNET_NODES", 1, GASNET_C_MAX_NODES, hosts->count ? hosts->count : 1, &nodes) ||
        !gasnetl_config_number("GASNET_RANK", 0, GASNET_C_MAX_NODES - 1, 0, &rank) || !is_rank(hosts, rank, nodes) ||
        !gasnetl_config_number("GASNET_JOB", 0, UINT64_MAX, 0, &job) ||
        !gasnetl_config_number("GASNET_SOCKET", 0, none - 1, none, &socket) || !hold_lifeline())
        return false;
    gasnetl_runner_start();
    start->nodes = (uint16_t)nodes;
    start->me = (uint16_t)rank;
    start->job = job;
    start->socket = socket == none ? -1 : (int)socket;
    return true;
}

static bool start_by_variables(struct gasnetl_start *start, struct gasnetl_places *places) {
    struct gasnetl_hosts hosts;
    bool is_read = gasnetl_hosts_ask(&hosts) && read_start(start, &hosts);
    if (is_read && !hosts.variable) {
        fprintf(stderr,
                "gasnet: neither GASNET_ADDRESSES nor GASNET_HOSTS is set: set one, to where each of %u nodes is\n",
                start->nodes);
        is_read = false;
    }
    is_read = is_read && read_places(&hosts, places, start->nodes);
    free(hosts.addresses);
    return is_read;
}

/* Where variables tell of several nodes, but not which one this is: the variable that does; else NULL. */
static const char *rankless(void) {
    static const char *const names[] = { "GASNET_ADDRESSES", "GASNET_HOSTS", "GASNET_HOSTS_FILE", "GASNET_NODES" };
    for (int i = 0; i < 4; i++)
        if (getenv(names[i]))
            return names[i];
    return NULL;
}

/* Nobody says which node this is: it is a job of its own, unless a variable tells of others. */
static bool start_alone(struct gasnetl_start *start) {
    const char *variable = rankless();
    start->nodes = 1;
    start->neighbours = 1;
    if (!variable)
        return true;
    fprintf(stderr,
            "gasnet: %s is set, but not which node this is: set GASNET_RANK to it, from 0, or unset %s for a "
            "job of one node\n",
            variable, variable);
    return false;
}

bool gasnetl_bootstrap(struct gasnetl_start *start, struct gasnetl_places *places) {
    memset(start, 0, sizeof *start);
    start->socket = -1;
    if (getenv("GASNET_RANK"))
        return start_by_variables(start, places);
    if (getenv("PMIX_RANK") && getenv("PMIX_NAMESPACE"))
        return gasnetl_pmix_start(start, places);
    return start_alone(start);
}

void gasnetl_bootstrap_end(const struct gasnetl_start *start) {
    if (start->by_pmix)
        gasnetl_pmix_end();
}

void gasnetl_bootstrap_abort(const struct gasnetl_start *start, int status) {
    if (start->by_pmix)
        gasnetl_pmix_abort(status);
}
