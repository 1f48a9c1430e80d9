/* What is known of the peers: what they were asked, when they were heard, and which of them is gone.
 *
 * Each half second that this node polls it asks the peers that say nothing whether they are there, by a ping; a peer
 * answers as it polls itself. A peer is gone where it said nothing for GASNET_PEER_TIMEOUT after it was asked
 * something, or where its host refused pings of two half seconds in a row while nothing was heard from it.
 *
 * Whoever can send ICMP can say that a host refuses. So a refusal has to bring back the front of a datagram of this
 * node in this job: who is off the path doesn't know its numbers, of 64 random bits each. And it is only a reason to
 * ask. Who is on the path, and reads what passes, can have a peer that answers taken for gone only by stopping its
 * answers too, and so can without ICMP. A peer that doesn't poll answers nothing: of that one, who is on the path is
 * believed. */
#ifndef GASNETL_PEERS_H
#define GASNETL_PEERS_H

#include <stdbool.h>
#include <stdint.h>

#include "gasnet.h"
#include "network.h"

struct gasnetl_job;

struct gasnetl_peer {
    unsigned out;      /* the requests to it that aren't back */
    bool is_pinged;    /* it was asked whether it is there, and wasn't heard since */
    bool is_refused;   /* its host refused a datagram, and nothing was heard since */
    bool is_doubted;   /* it is to be asked at once, since its host refused one */
    unsigned refusals; /* of how many looks in a row its host refused the pings */
    uint64_t pinged;   /* when the last ping was sent; 0 for none */
    uint64_t refused;  /* the same of the last one that its host refused */
    uint64_t heard;    /* when it was last heard; by this and the one above it is known whether it is gone */
    uint64_t since;    /* the same, or when it was asked after it was heard */
    unsigned asking;   /* the threads that wait for a credit to it, for a request */
    bool library_goes; /* whose turn it is where the client and the library want the same credit for a request */
};

struct gasnetl_peers {
    struct gasnetl_peer *of;       /* of each node */
    uint64_t last_look, next_look; /* in microseconds */
    bool has_doubts;               /* some peer is doubted */
};

/* A datagram of the peer came that it sent in this run. */
void gasnetl_peer_heard(struct gasnetl_job *job, uint16_t node);

/* A datagram to the peer came back: its host, or somebody else by ICMP, says that nobody has its socket. */
gasnetl_came_back gasnetl_peer_refused;

/* A new request went to the peer. */
void gasnetl_peer_asked(struct gasnetl_job *job, uint16_t node);

/* Looks after the peers, where it is time to. A peer that is gone ends the job. */
void gasnetl_peers_look(struct gasnetl_job *job);

#endif
