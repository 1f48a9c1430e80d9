/* The hosts of gasnetrun --hosts. Each has a part of the ranks, which a gasnetrun of its own runs there (--part): it is
 * started by ssh, and ends its nodes as its standard input ends. */
#ifndef GASNETL_PARTS_H
#define GASNETL_PARTS_H

#include <stdbool.h>

#include "gasnet.h"
#include "options.h"

enum { GASNETL_PART_ENDED = 125 }; /* the status of a part whose standard input ended before its nodes */

struct gasnetl_part {
    const char *host; /* as ssh takes it */
    int first, nodes; /* its ranks */
};

struct gasnetl_parts {
    int count;
    struct gasnetl_part of[GASNET_MAXNODES];
};

/* Shares so many ranks out among hosts, with commas or spaces between them: each has as many in a row, the first ones
 * one more where that doesn't come out even. False where there is no host, or one that ssh would take for an option. */
bool gasnetl_parts_read(struct gasnetl_parts *parts, char *hosts, int nodes);

/* Sets the variables by which the nodes find one another. False where there is no memory. */
bool gasnetl_parts_name(const struct gasnetl_parts *parts);

/* Becomes the program that starts a part: ssh, or what GASNET_SSH names with its options. The part has this process's
 * folder, and what of its environment begins with GASNET_: that goes by the program's standard input, since a list of
 * processes shows words to everybody. The input ends as the pipe `lifeline` does. */
_Noreturn void gasnetl_part_become(const struct gasnetl_part *part, const struct gasnetl_options *options,
                                   const int lifeline[2]);

/* Takes that environment, as a part. False where the standard input ends before it does, or there is no memory. */
bool gasnetl_part_take_environment(void);

#endif
