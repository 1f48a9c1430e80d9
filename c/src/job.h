/* The job as this process sees it: all that the layer keeps. GASNet's calls have no parameter for it, so one value of
 * it exists, in job.c; every other function is handed a pointer. */
#ifndef GASNETL_JOB_H
#define GASNETL_JOB_H

#include <stdatomic.h>
#include <stdbool.h>
#include <stdint.h>
#include <sys/types.h>

#include "atomics.h"
#include "bootstrap.h"
#include "collectives.h"
#include "config.h"
#include "control.h"
#include "gasnet.h"
#include "gasnet_c.h"
#include "kept.h"
#include "messages.h"
#include "network.h"
#include "packs.h"
#include "peers.h"
#include "progress.h"
#include "progress_thread.h"
#include "recovery.h"
#include "segment.h"
#include "stacks.h"
#include "threads.h"
#include "transfers.h"

/* The bytes of the layer's part of each segment, behind the client's: the stage of transfers, the blocks of operations
 * on words, and the part of collectives; whole pages. */
enum {
    GASNETL_OWN = (GASNETL_STAGE + GASNETL_BLOCKS_OWN + GASNETL_COLLECTIVES_OWN + GASNET_PAGESIZE - 1) /
                  GASNET_PAGESIZE * GASNET_PAGESIZE
};

/* The bytes of the greatest segment of a client's that the endpoint has. */
#define GASNETL_MOST (((uintptr_t)1 << 40) - GASNETL_OWN)

struct gasnetl_job {
    gasnet_node_t me, nodes;
    atomic_bool starts;                   /* gasnet_init was called, and didn't fail */
    atomic_bool initialised;              /* it came back */
    bool attaches;                        /* a thread is in gasnet_attach */
    bool is_child;                        /* this process was forked by a node, and is none */
    pid_t process;                        /* the node's; 0 before */
    atomic_bool attached;                 /* false again from some moment of the end on */
    struct gasnetl_thread *_Atomic ender; /* the thread that ends the process; NULL before */
    atomic_bool is_left;                  /* that thread told the peers, and goes on to exit */
    atomic_bool is_quit;                  /* SIGQUIT was raised */
    struct gasnetl_start start;
    struct gasnetl_config config;
    struct gasnetl_network network;
    gasnet_c_node node; /* the proved endpoint */
    struct gasnetl_segment segment;
    struct gasnetl_turns turns;
    struct gasnetl_peers peers;
    struct gasnetl_progress progress;
    struct gasnetl_recovery recovery;
    struct gasnetl_messages messages;
    struct gasnetl_transfers transfers;
    struct gasnetl_packs packs;
    struct gasnetl_atomics atomics;
    struct gasnetl_collectives collectives;
    struct gasnetl_control control;
    struct gasnetl_kept kept;
    struct gasnetl_progress_thread thread;
    struct gasnetl_stacks stacks;
};

/* The one job. Only the functions of gasnet.h, and those that end a process, name it. */
extern struct gasnetl_job gasnetl_job;

#endif
