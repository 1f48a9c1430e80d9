/* What a node tells gasnetrun, which started it, by a pipe. GASNET_RUNNER names that as DESCRIPTOR:INODE, so that a
 * program which inherits the variable, but not the pipe, tells nobody anything. */
#ifndef GASNETL_RUNNER_H
#define GASNETL_RUNNER_H

#include <stdint.h>

enum {
    GASNETL_ENDED_BY_PEER = 'p', /* this node ends since another one ended the job */
    GASNETL_ENDED_WELL = '0',    /* this node ended the job, with status 0 */
    GASNETL_TELLS_STACKS = 's'   /* SIGUSR2 has this node tell where its threads wait (stacks.h) */
};

/* What goes through the pipe. */
struct gasnetl_report {
    uint8_t kind, node;
    int32_t process; /* the node's */
};

/* Keeps the pipe from the programs that this node starts. */
void gasnetl_runner_start(void);

/* Tells gasnetrun, where it started this node. */
void gasnetl_runner_tell(uint8_t kind, unsigned node);

#endif
