/* Progress: datagrams that came are delivered, and what is due is sent. */
#ifndef GASNETL_PROGRESS_H
#define GASNETL_PROGRESS_H

#include <stdatomic.h>
#include <stdbool.h>
#include <stddef.h>
#include <stdint.h>

#include "gasnet.h"
#include "gasnet_c.h"

struct gasnetl_job;
struct gasnetl_peer;

struct gasnetl_progress {
    uint64_t now;           /* the time of this round, in microseconds */
    uint64_t elapsed;       /* the time in which this node looked for datagrams, in microseconds */
    uint64_t time;          /* the endpoint's, in milliseconds: what of it elapsed */
    uint64_t last_empty;    /* what had elapsed when nothing more had come */
    uint64_t next_tick;     /* when a request is due that the endpoint sends again by itself, by its time; 0 where it
                               has to be asked */
    unsigned out;           /* the requests to all peers that aren't back */
    uint64_t resent;        /* how often a request was sent again */
    unsigned credits;       /* how many may be out to one peer */
    bool has_notifications; /* a notification of the barrier may be due */
    unsigned since_poll;    /* requests since the last poll */
    unsigned idle;          /* polls in which nothing came */
    bool keeps;             /* no handler of the client's may run: what runs one is kept for the next poll */
    atomic_int wait_mode;   /* a client's thread sets it without a turn */
    unsigned spin;          /* the empty looks of a call that waits, before it sleeps, at most (patience.h) */
};

/* The time, in microseconds. */
uint64_t gasnetl_clock(void);

/* Reads the time of this round, and the endpoint's. */
void gasnetl_read_clock(struct gasnetl_job *job);

/* Makes ready: how many credits a pair of nodes has, and how calls wait. */
void gasnetl_progress_start(struct gasnetl_job *job);

/* Takes up to `most` datagrams that came, and sends what is due. Whether any came. */
bool gasnetl_poll(struct gasnetl_job *job, int most);

/* A request of the client's begins: it reads the clock, and polls at each 32nd one. */
void gasnetl_request_begins(struct gasnetl_job *job);

/* A round of a call that waits: takes one datagram, or, where none came for a while, sleeps until one comes. `turn` is
 * 0 at first. Another thread may have its turn meanwhile. */
void gasnetl_wait(struct gasnetl_job *job, unsigned *turn);

/* Does what an answer of the endpoint wants done: sends its datagram, and counts. A request that is accepted is one for
 * the library of its target. */
void gasnetl_told(struct gasnetl_job *job, const gasnet_c_told *told);

/* The same of a request that is accepted, for a handler of the client's. */
void gasnetl_client_asked(struct gasnetl_job *job, const gasnet_c_told *told);

/* Whether the library may have the next credit to a peer: where a request of the client's waits for one too, each of
 * the two gets every other one. */
bool gasnetl_library_goes(struct gasnetl_peer *peer);

/* Sends chunks of transfers to a node while there are some and it has credits, but for those that requests wait for. */
void gasnetl_send_chunks(struct gasnetl_job *job, uint16_t to);

/* Ticks until nothing is due. */
void gasnetl_tick(struct gasnetl_job *job);

#endif
