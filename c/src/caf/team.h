/* Teams of images, and what keeps the members of one together. */
#ifndef CAF_TEAM_H
#define CAF_TEAM_H

#include <stdbool.h>
#include <stdint.h>

#include "gasnet.h"

enum { CAF_ROUNDS = 8, CAF_INITIAL_TEAM = -1 }; /* rounds: so many that each member hears of each */
_Static_assert(1 << CAF_ROUNDS >= GASNET_MAXNODES, "a barrier has a round for each doubling of the members");

struct caf_mail;

/* What a member brings to a meeting. */
struct caf_pair {
    uint64_t first, second;
};

struct caf_team {
    uint64_t id;           /* the same at all members */
    struct caf_team *next; /* of all teams that are known here */
    struct caf_team *parent;
    int number, size, index; /* index: this image's place among the members, from 0 */
    gasnet_node_t members[GASNET_MAXNODES];
    uint32_t sequence;   /* the operations of the team that this image began */
    uint32_t collective; /* the latest one of them that has mail */
    uint32_t forms;      /* the teams that were formed of this one */
    uint32_t meetings;
    uint32_t left[GASNET_MAXNODES];   /* by node: the operations that an image began before it stopped or failed */
    uint32_t rounds[CAF_ROUNDS];      /* the latest operation whose message of this round came */
    uint32_t met[2][GASNET_MAXNODES]; /* by node: the latest even and odd meeting that it came to */
    struct caf_pair values[2][GASNET_MAXNODES]; /* and with which values */
    struct caf_mail *mail;                      /* what came for operations, and wasn't taken */
    uint64_t length;                            /* of the latest collective's array */
    const struct caf_mail *odd;                 /* a mail for it of a member whose array has another length */
};

/* The team of this identifier; one without members is made where none is known. */
struct caf_team *caf_team_find(uint64_t id);

/* Makes the initial team, and makes it the current one. */
void caf_team_start(void);

/* The node of an image of the current team. Where there is no such image, and more than one in all, all images end. */
int caf_node(int image);

/* Waits until all members came here. Answers 0, or CAF_STAT_STOPPED_IMAGE where one stopped before, or
 * CAF_STAT_FAILED_IMAGE where one failed and the others all came. */
int caf_barrier(struct caf_team *team);

/* The same, and each member brings a value: values[i] is that of member i, 0 of one that failed. */
int caf_meet(struct caf_team *team, uint64_t mine, uint64_t *values);

/* The same with two values of each member. */
int caf_meet_by_pairs(struct caf_team *team, struct caf_pair mine, struct caf_pair *values);

/* Begins an operation of the team, and answers its number. */
uint32_t caf_team_begin(struct caf_team *team);

/* Whether a member stopped or failed before it began this operation: 0, CAF_STAT_STOPPED_IMAGE or
 * CAF_STAT_FAILED_IMAGE. */
int caf_team_absence(const struct caf_team *team, uint32_t sequence);

#endif
