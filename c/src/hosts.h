/* Where the nodes of a job are, as the environment says it. */
#ifndef GASNETL_HOSTS_H
#define GASNETL_HOSTS_H

#include <stdbool.h>
#include <stdint.h>

/* What a variable says of the addresses of all nodes. */
struct gasnetl_hosts {
    const char *variable; /* the one that says it; NULL where none does */
    char *addresses;      /* HOST:PORT or [HOST]:PORT of each node, by rank, with commas between them */
    uint16_t count;       /* how many those are; 0 where GASNET_ADDRESSES has them */
};

/* Asks GASNET_ADDRESSES; else GASNET_HOSTS, else the file of GASNET_HOSTS_FILE: a host for each node, by rank, with
 * spaces, commas or line ends between them. The node of rank R then has the port GASNET_PORT + R. False where a
 * variable is broken: a line on standard error has said what. Whoever asks frees `addresses`. */
bool gasnetl_hosts_ask(struct gasnetl_hosts *hosts);

#endif
