/* The words of gasnetrun's command. */
#ifndef GASNETL_OPTIONS_H
#define GASNETL_OPTIONS_H

#include <stdbool.h>

enum { GASNETL_USAGE = 64 }; /* the status where they are wrong (as sysexits.h numbers it) */

struct gasnetl_options {
    int nodes;     /* -n: how many there are, from 1 */
    int debugged;  /* --gdb: the node that a debugger starts; -1 for none */
    char *hosts;   /* --hosts: where the nodes are; NULL for this host */
    int part;      /* --part: the rank of the first node, where this is a part of a job over several hosts; else -1 */
    bool prefixes; /* --prefix-output: each line of output has the rank of its node in front */
    char **words;  /* the program and its arguments */
};

/* Reads them. Where they ask for a text alone, as --help does, or are wrong, the text or the usage is printed, and the
 * process ends. */
void gasnetl_options_read(struct gasnetl_options *options, int argc, char **argv);

#endif
