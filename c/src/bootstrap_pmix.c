/* The start by a process manager: rank, size and addresses come by PMIx (as from mpirun and srun). */
#include "bootstrap.h"

#include <stdio.h>
#include <stdlib.h>
#include <string.h>
#include <unistd.h>

#ifndef GASNETL_PMIX

bool gasnetl_pmix_start(struct gasnetl_start *start, struct gasnetl_places *places) {
    (void)start;
    (void)places;
    fprintf(stderr, "gasnet: a process manager started this node by PMIx, which libgasnet was built without: install "
                    "libpmix-dev and build it again, or start the program by gasnetrun\n");
    return false;
}

void gasnetl_pmix_end(void) {}
void gasnetl_pmix_abort(int status) { (void)status; }

#else

#include <errno.h>
#include <pmix.h>
#include <sys/random.h>

#include "interfaces.h"
#include "sockets.h"

static pmix_proc_t own;

enum { TEXT = 80 };

static bool fails(const char *what, pmix_status_t status) {
    if (status == PMIX_SUCCESS)
        return false;
    fprintf(stderr, "gasnet: the process manager can't %s (%s): start the program by gasnetrun\n", what,
            PMIx_Error_string(status));
    return true;
}

/* A number that the process manager keeps of the job. */
static bool job_number(const char *key, uint32_t *number) {
    pmix_proc_t job;
    pmix_value_t *value;
    PMIX_PROC_CONSTRUCT(&job);
    PMIX_LOAD_PROCID(&job, own.nspace, PMIX_RANK_WILDCARD);
    if (fails(key, PMIx_Get(&job, key, NULL, 0, &value)))
        return false;
    bool is_number = value->type == PMIX_UINT32;
    if (is_number)
        *number = value->data.uint32;
    PMIX_VALUE_RELEASE(value);
    return !fails(key, is_number ? PMIX_SUCCESS : PMIX_ERR_TYPE_MISMATCH);
}

/* Where this node is to be: by GASNET_INTERFACE, else at the loopback's address where all nodes are on one host,
 * else at the host's first address. False where GASNET_INTERFACE names none. */
static bool own_place(const struct gasnetl_start *start, struct gasnetl_place *place) {
    const char *word = getenv("GASNET_INTERFACE");
    if (!word && start->neighbours >= start->nodes)
        word = "127.0.0.1";
    if (!word)
        gasnetl_interface_first(&place->address, &place->length);
    else if (!gasnetl_interface_find(word, &place->address, &place->length)) {
        fprintf(stderr,
                "gasnet: node %u: GASNET_INTERFACE is '%s': set it to an interface of this host, as eth0, that "
                "is up and has an address, or to an address that this host has\n",
                start->me, word);
        return false;
    }
    return true;
}

/* A socket of this host, and its address as a text. */
static bool bind_own(struct gasnetl_start *start, char *text) {
    struct gasnetl_place place = { .length = 0 };
    if (!own_place(start, &place))
        return false;
    start->socket = gasnetl_socket_bind((struct sockaddr *)&place.address, place.length);
    if (start->socket < 0 || getsockname(start->socket, (struct sockaddr *)&place.address, &place.length)) {
        fprintf(stderr, "gasnet: node %u can't have a socket (%s)\n", start->me, strerror(errno));
        return false;
    }
    gasnetl_place_write(&place.address, text, TEXT);
    return true;
}

static bool put_text(const char *key, char *text) {
    pmix_value_t value;
    value.type = PMIX_STRING;
    value.data.string = text;
    return !fails("publish an address", PMIx_Put(PMIX_GLOBAL, key, &value));
}

/* Publishes the local address, and node 0 the job's number, and waits until all have. */
static bool publish(struct gasnetl_start *start, char *address) {
    char job[24];
    pmix_info_t collects;
    bool yes = true;
    if (getrandom(&start->job, sizeof start->job, 0) != sizeof start->job)
        start->job = (uint64_t)getpid();
    snprintf(job, sizeof job, "%llu", (unsigned long long)start->job);
    if (!put_text("gasnet.address", address) || (!start->me && !put_text("gasnet.job", job)))
        return false;
    PMIX_INFO_LOAD(&collects, PMIX_COLLECT_DATA, &yes, PMIX_BOOL);
    return !fails("publish", PMIx_Commit()) && !fails("gather addresses", PMIx_Fence(NULL, 0, &collects, 1));
}

/* Copies what a node published. */
static bool get_text(uint32_t node, const char *key, char *text) {
    pmix_proc_t peer;
    pmix_value_t *value;
    PMIX_PROC_CONSTRUCT(&peer);
    PMIX_LOAD_PROCID(&peer, own.nspace, node);
    if (fails(key, PMIx_Get(&peer, key, NULL, 0, &value)))
        return false;
    snprintf(text, TEXT, "%s", value->type == PMIX_STRING ? value->data.string : "");
    PMIX_VALUE_RELEASE(value);
    return true;
}

static bool gather(struct gasnetl_start *start, struct gasnetl_places *places) {
    char all[GASNET_C_MAX_NODES * TEXT] = "", job[TEXT];
    struct gasnetl_why why;
    size_t length = 0;
    for (uint32_t node = 0; node < start->nodes; node++) {
        if (node)
            all[length++] = ',';
        if (!get_text(node, "gasnet.address", all + length))
            return false;
        length += strlen(all + length);
    }
    if (!get_text(0, "gasnet.job", job))
        return false;
    start->job = strtoull(job, NULL, 10);
    if (gasnetl_places_read(places, start->nodes, all, &why))
        return true;
    fprintf(stderr,
            "gasnet: the addresses that nodes published are broken: %s; set GASNET_INTERFACE to the interface "
            "by which the hosts reach one another\n",
            why.text);
    return false;
}

bool gasnetl_pmix_start(struct gasnetl_start *start, struct gasnetl_places *places) {
    uint32_t nodes, neighbours;
    char address[TEXT];
    if (fails("be reached", PMIx_Init(&own, NULL, 0)))
        return false;
    start->by_pmix = true;
    if (!job_number(PMIX_JOB_SIZE, &nodes) || !job_number(PMIX_LOCAL_SIZE, &neighbours))
        return false;
    if (nodes > GASNET_C_MAX_NODES) {
        fprintf(stderr, "gasnet: there are %u nodes: start at most %d\n", nodes, GASNET_C_MAX_NODES);
        return false;
    }
    start->nodes = (uint16_t)nodes;
    start->me = (uint16_t)own.rank;
    start->neighbours = neighbours;
    return nodes == 1 || (bind_own(start, address) && publish(start, address) && gather(start, places));
}

void gasnetl_pmix_end(void) { PMIx_Finalize(NULL, 0); }

void gasnetl_pmix_abort(int status) { PMIx_Abort(status, "a GASNet node ended the job", NULL, 0); }

#endif
