#include "names.h"

#include <stdbool.h>
#include <stdio.h>
#include <stdlib.h>
#include <string.h>
#include <unistd.h>

/* A variable: its value where it isn't set, and what it is. */
struct variable {
    const char *name, *otherwise, *about;
};

/* Those that the library, gasnetrun, cafrun and gasnetcc read. docs/GASNET.md ("Variables") says more. */
static const struct variable variables[] = {
    { "GASNET_RANK", "none", "which node this is, from 0" },
    { "GASNET_NODES", "by the hosts", "how many nodes there are, 1 to 256" },
    { "GASNET_HOSTS", "none", "the host of each node, in the order of ranks" },
    { "GASNET_HOSTS_FILE", "none", "a file that has what GASNET_HOSTS has" },
    { "GASNET_PORT", "21000", "the node of rank R has this port + R" },
    { "GASNET_ADDRESSES", "none", "HOST:PORT of each node, in place of the hosts and the port" },
    { "GASNET_INTERFACE", "the first", "under mpirun and srun: the interface, or the address, of this host" },
    { "GASNET_JOB", "0", "the job's number; gasnetrun draws one" },
    { "GASNET_SOCKET", "none", "the descriptor of the node's socket; gasnetrun sets it" },
    { "GASNET_LIFELINE", "none", "the descriptor of gasnetrun's pipe; gasnetrun sets it" },
    { "GASNET_RUNNER", "none", "the pipe by which a node tells gasnetrun how it ends; gasnetrun sets it" },
    { "GASNET_KEY_FILE", "none", "a file with the job's key, 64 hexadecimal digits" },
    { "GASNET_MAX_SEGSIZE", "by the memory", "the greatest segment, in bytes, or with K, M, G or T" },
    { "GASNET_RESEND", "2000", "the longest time between two transmissions of a request, in ms" },
    { "GASNET_CREDITS", "32", "how many requests to each node may be open" },
    { "GASNET_MTU", "by the system", "the bytes of an IP packet on the ways to and from this node" },
    { "GASNET_PROGRESS", "thread", "thread: the layer serves peers while the client computes; poll: in calls alone" },
    { "GASNET_PEER_TIMEOUT", "300", "after so many seconds without an answer a peer is gone; 0: never" },
    { "GASNET_EXIT_TIMEOUT", "20", "how many seconds gasnet_exit(0) waits for the others" },
    { "GASNET_END_TIMEOUT", "1000", "how many ms a forced end waits for the others' answers" },
    { "GASNET_GRACE", "1000", "the ms that gasnetrun gives the others where a node failed" },
    { "GASNET_SPIN", "1 to 400", "the empty looks at the socket before a call that waits sleeps" },
    { "GASNET_CAF_PROVED", "0", "1: coarrays take the proved collectives wherever they can" },
    { "GASNET_COUNTS", "unset", "set: a node tells its counts of datagrams at its end" },
    { "GASNET_DROP", "0", "the percentage of its datagrams that a node loses, for tests" },
    { "GASNET_TWICE", "0", "the percentage that it sends twice, for tests" },
    { "GASNET_SWAP", "0", "the percentage that it sends behind the next one, for tests" },
    { "GASNET_SEED", "1", "the seed of these faults" },
    { "GASNET_CC", "gcc", "the compiler of gasnetcc" },
    { "GASNET_GDB", "gdb", "the debugger of gasnetrun --gdb" },
    { "GASNET_SSH", "ssh", "with its options: what gasnetrun --hosts runs a command on a host by" },
    /* These are gasnet_cli's, and those of the build and of the tests. */
    { "GASNET_AGENT", NULL, NULL },
    { "GASNET_C_LIB", NULL, NULL },
    { "GASNET_TEST_LIMIT", NULL, NULL },
    { "GASNET_TEST_QUICK", NULL, NULL },
};
enum { NAMES = sizeof variables / sizeof *variables, PREFIX = sizeof "GASNET_" - 1, ALIKE = PREFIX + 3, LINE = 800 };

static bool is_known(const char *name, size_t length) {
    for (int i = 0; i < NAMES; i++)
        if (strlen(variables[i].name) == length && !memcmp(variables[i].name, name, length))
            return true;
    return false;
}

/* How many letters two names begin with in common. */
static size_t alike(const char *name, const char *other) {
    size_t count = 0;
    while (name[count] && name[count] == other[count])
        count++;
    return count;
}

/* The known name that begins most like this one; NULL where none does for some letters. */
static const char *nearest(const char *name) {
    const char *best = NULL;
    size_t most = ALIKE - 1;
    for (int i = 0; i < NAMES; i++)
        if (alike(name, variables[i].name) > most) {
            best = variables[i].name;
            most = alike(name, best);
        }
    return best;
}

/* Writes a word of the list behind what the line has, as far as there is room. */
static void add(char *line, const char *name, size_t length) {
    const char *known = nearest(name);
    size_t at = strlen(line);
    snprintf(line + at, LINE - at, "%s%.*s", at ? ", " : "", (int)length, name);
    at = strlen(line);
    if (known)
        snprintf(line + at, LINE - at, " (%s?)", known);
}

void gasnetl_warn_of_names(void) {
    char line[LINE] = "";
    for (char **at = environ; *at; at++) {
        size_t length = strcspn(*at, "=");
        if (!strncmp(*at, "GASNET_", PREFIX) && !is_known(*at, length))
            add(line, *at, length);
    }
    if (*line)
        fprintf(stderr, "gasnet: no variable of this library has this name, so it has no effect: %s\n", line);
}

void gasnetl_names_print(FILE *to) {
    fprintf(to, "%-20s %-14s %-14s %s\n", "variable", "value", "default", "what it is");
    for (int i = 0; i < NAMES; i++) {
        const struct variable *variable = &variables[i];
        const char *value = getenv(variable->name);
        if (variable->about)
            fprintf(to, "%-20s %-14s %-14s %s\n", variable->name, value ? value : "-", variable->otherwise,
                    variable->about);
    }
}
