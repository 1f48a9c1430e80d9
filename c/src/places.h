/* Where the nodes of a job are: their addresses, and which node an address is. */
#ifndef GASNETL_PLACES_H
#define GASNETL_PLACES_H

#include <stdbool.h>
#include <stddef.h>
#include <stdint.h>
#include <sys/socket.h>

#include "gasnet_c.h"

enum { GASNETL_NO_NODE = 0xffff };

struct gasnetl_place {
    struct sockaddr_storage address;
    socklen_t length;
    uint16_t next; /* the next node with the same port, or GASNETL_NO_NODE */
};

struct gasnetl_places {
    uint16_t nodes;
    struct gasnetl_place *of; /* of each node */
    uint16_t *first;          /* for each port the first node that has it, or GASNETL_NO_NODE */
};

/* What is wrong with addresses, as a part of a sentence. */
struct gasnetl_why {
    char text[600];
};

/* Reads addresses as 127.0.0.1:4001 or [::1]:4001, with commas between them, for as many nodes as there are: of one
 * family, each another one, at ports from 1 to 65,535. A name leads to an address of the first one's family, where
 * it has one. False where they are others: `why` names the word and what is wrong with it. */
bool gasnetl_places_read(struct gasnetl_places *places, uint16_t nodes, const char *text, struct gasnetl_why *why);

/* What to do where a node's socket can't have its address, by the system's error. */
const char *gasnetl_place_remedy(int error);

/* The node with this address: GASNETL_NO_NODE where it is none's. It looks at the nodes of that port alone. */
uint16_t gasnetl_places_find(const struct gasnetl_places *places, const struct sockaddr_storage *address);

/* Whether two nodes are on one host, by their addresses. */
bool gasnetl_places_share_host(const struct gasnetl_places *places, uint16_t one, uint16_t other);

/* Writes an address as it is read. */
void gasnetl_place_write(const struct sockaddr_storage *address, char *text, size_t room);

#endif
