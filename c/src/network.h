/* The socket of a node: datagrams to and from the nodes of the job, and from nobody else. */
#ifndef GASNETL_NETWORK_H
#define GASNETL_NETWORK_H

#include <stdbool.h>
#include <stddef.h>
#include <stdint.h>

#include "bootstrap.h"
#include "config.h"
#include "faults.h"
#include "places.h"
#include "seal.h"

enum {
    GASNETL_LENGTH_BYTES = 2, /* of the length before a message in a sealed datagram */
    /* The bytes of a datagram of ours at most, but for a sealed one of several messages. */
    GASNETL_DATAGRAM = GASNET_C_ROOM + GASNETL_LENGTH_BYTES + GASNETL_SEAL_BYTES,
    GASNETL_GROUP = 64, /* the datagrams of a group at most, and their bytes */
    GASNETL_GROUP_BYTES = GASNETL_SEALED_MOST,
    GASNETL_ARRIVALS = 16,                            /* what one call of the system receives at most */
    GASNETL_TRAIN_BYTES = 1 << 16,                    /* the bytes of one of these at most */
    GASNETL_ARRIVAL_BYTES = GASNETL_TRAIN_BYTES + 192 /* so that two of them don't share lines of a cache */
};

/* Datagrams to one node that wait to be sent by one call of the system, which cuts them (UDP_SEGMENT): each has as many
 * bytes as the first one, but for the last, which may have fewer. */
struct gasnetl_going {
    uint16_t to;
    unsigned count;
    size_t each, first, end; /* the bytes of one; where in `bytes` they begin and end */
    uint8_t bytes[2 * GASNETL_GROUP_BYTES];
};

/* Where a key is set: messages to one node, each behind its length, that are to be sealed as one datagram, of as many
 * as a packet of the way takes. To seal a datagram, or to open it, costs as much as a kilobyte of it beside its bytes.
 */
struct gasnetl_filling {
    uint16_t to;
    size_t first, end; /* where in `bytes` they begin and end */
    uint8_t bytes[2 * GASNETL_GROUP_BYTES];
};

/* Datagrams of one sender that the system received together (UDP_GRO), in the same form. */
struct gasnetl_arrival {
    uint16_t from;
    size_t each, first, end; /* where those begin that weren't taken yet */
    size_t message, last;    /* of one that was opened: the same of its messages */
    uint8_t bytes[GASNETL_ARRIVAL_BYTES];
};

/* What one call of the system received. */
struct gasnetl_coming {
    unsigned count, next; /* the arrivals, and the one that is taken from */
    int most;             /* how many the next call asks for; 0 as 1 */
    struct gasnetl_arrival of[GASNETL_ARRIVALS];
};

/* The front of a datagram to a node, as it came back from a host that says that nobody has the socket: whoever can
 * send ICMP may say so. It is called while others wait to be sent, and sends none. */
struct gasnetl_job;
typedef void gasnetl_came_back(struct gasnetl_job *job, uint16_t to, const uint8_t *bytes, size_t length);

struct gasnetl_network {
    int socket; /* -1 where there is none */
    uint16_t me;
    bool is_lost;      /* the system knows the socket no more: the client closed it */
    bool has_groups;   /* the system sends and receives groups */
    bool is_connected; /* to the only peer */
    struct gasnetl_places places;
    struct gasnetl_faults faults;
    gasnetl_came_back *came_back; /* takes what came back; NULL where nobody does */
    struct gasnetl_job *job;      /* what it is handed */
    bool *is_unsealed;            /* of each node: a datagram without a right tag came from its address */
    size_t *single_from;          /* the way to the node has no groups of datagrams of so many bytes */
    struct gasnetl_seals seals;   /* where a key is set, all datagrams are sealed */
    uint32_t *packet;             /* the bytes of what is sealed to each node for one packet; 0 where it isn't known */
    struct gasnetl_filling filling;
    struct gasnetl_going going;
    struct gasnetl_coming coming;
    uint64_t sent, received, strays, unsealed, unsent;
};

/* Makes a socket for the node's own address, or takes the one that the start names, and reads the key. The places are
 * read already. False where that fails: a line on standard error has said why. */
bool gasnetl_network_open(struct gasnetl_network *network, const struct gasnetl_config *config,
                          const struct gasnetl_start *start);

/* Where the next datagram may be written, of GASNET_C_ROOM bytes at most, before it is sent. It stays there until
 * something is sent. */
uint8_t *gasnetl_network_room(struct gasnetl_network *network);

/* Sends a datagram to a node, at the latest as gasnetl_network_flush is called. It doesn't wait: what can't be sent at
 * once is lost, as a network loses it. */
void gasnetl_network_send(struct gasnetl_network *network, uint16_t to, const void *bytes, size_t length);

/* Sends what waits to be sent. */
void gasnetl_network_flush(struct gasnetl_network *network);

/* Takes the next datagram that came from a node of the job, and sends what waits before it asks the system for one. Its
 * bytes, which stay until the next call, how many they are, cut to GASNETL_DATAGRAM, and its sender; NULL where none is
 * there. It doesn't wait. Where a key is set these are the messages of what it opens, one by one. Others' datagrams are
 * dropped and counted, and so are those that the key didn't seal; after GASNETL_STRAYS of both it answers NULL, so that
 * a flood of them holds up nothing. */
const uint8_t *gasnetl_network_receive(struct gasnetl_network *network, size_t *length, uint16_t *from);

/* Whether a datagram was received already, and not taken. */
bool gasnetl_network_has_more(struct gasnetl_network *network);

/* Forgets what waits to be sent, and what wasn't taken: a signal interrupted who had them in hand. */
void gasnetl_network_forget(struct gasnetl_network *network);

enum { GASNETL_STRAYS = 64 };

/* Closes the socket. Nothing is freed: the process ends. */
void gasnetl_network_close(struct gasnetl_network *network);

#endif
