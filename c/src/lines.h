/* What the nodes of gasnetrun write, where each line is to tell its node: it comes by pipes, and goes on line by line.
 */
#ifndef GASNETL_LINES_H
#define GASNETL_LINES_H

#include <poll.h>
#include <stdbool.h>
#include <stddef.h>

#include "gasnet.h"

enum {
    GASNETL_STREAMS = 2 * GASNET_MAXNODES, /* the standard output of each node, and its standard error */
    GASNETL_LINES_MOST = 65536             /* the bytes of a line: a longer one goes in pieces, each a line */
};

struct gasnetl_stream {
    int reads, writes; /* the ends of the pipe; -1 where they are closed, or there is none */
    char *bytes;       /* of the line that isn't whole yet */
    size_t length;
};

struct gasnetl_lines {
    int first, nodes; /* the first rank, and how many there are: 0 where nothing is to tell its node */
    struct gasnetl_stream of[GASNETL_STREAMS];
};

/* Has pipes for so many nodes, of the rank `first` and of those behind it. False where the system has none. */
bool gasnetl_lines_open(struct gasnetl_lines *lines, int first, int nodes);

/* In the process that becomes the node: it writes to the pipes. */
void gasnetl_lines_become(const struct gasnetl_lines *lines, int node);

/* In gasnetrun, behind the start of the nodes: they alone write to the pipes. */
void gasnetl_lines_start(struct gasnetl_lines *lines);

/* Writes what to wait for into `ready`, of GASNETL_STREAMS entries. How many of them. */
nfds_t gasnetl_lines_await(const struct gasnetl_lines *lines, struct pollfd *ready);

/* Takes what came, by what poll made of these entries, and writes the lines that are whole. */
void gasnetl_lines_take(struct gasnetl_lines *lines, const struct pollfd *ready);

/* Takes what the nodes wrote before they ended, and writes it all. It waits for no more, though a process that a node
 * left behind may write still. */
void gasnetl_lines_end(struct gasnetl_lines *lines);

#endif
