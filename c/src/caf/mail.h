/* What members of a team send one another within an operation: bytes, or where bytes lie in the sender's segment. */
#ifndef CAF_MAIL_H
#define CAF_MAIL_H

#include <stddef.h>
#include <stdint.h>

#include "team.h"

/* An operation of a team, and what of it is under way. */
struct caf_operation {
    const char *call;
    struct caf_team *team;
    uint64_t length; /* the bytes of the array, which are as many at all members */
    uint32_t sequence;
    uint32_t block; /* the part of the array that goes at once */
    int code;       /* what stopped it: 0, CAF_STAT_STOPPED_IMAGE or CAF_STAT_FAILED_IMAGE */
};

enum { CAF_STEPS = 1024 }; /* the steps of a block; a step is one message from one member to another one */

struct caf_mail {
    struct caf_mail *next;
    uint32_t sequence, step, came, total;
    uint64_t length; /* of the sender's array */
    int node;        /* the sender */
    uintptr_t place; /* where the bytes lie at the sender; 0 where they came themselves */
    unsigned char *bytes;
};

/* Begins an operation of the current team on an array of so many bytes, and frees what came for earlier ones. */
struct caf_operation caf_operation_begin(const char *call, uint64_t length);

/* Ends all images where a member sent something for this operation whose array has another length. Whoever waits for
 * something of an operation waits for that too: caf_operation_is_odd says whether there is such a member. */
void caf_operation_check(const struct caf_operation *operation);
static inline bool caf_operation_is_odd(const struct caf_operation *operation) { return operation->team->odd != NULL; }

/* Sends bytes to a member, which may be none. As the next one, it sends nothing where the operation was stopped, or
 * the member isn't there. */
void caf_mail_send(const struct caf_operation *operation, uint32_t step, int member, const void *bytes, size_t length);

/* Tells a member where bytes lie in this image's segment: they have to stay there until the member has got them. */
void caf_mail_show(const struct caf_operation *operation, uint32_t step, int member, const void *place);

/* Waits for what is sent in a step. Null where a member is absent: the operation is stopped then. */
struct caf_mail *caf_mail_take(struct caf_operation *operation, uint32_t step);

/* The bytes of a mail that came themselves, as many as they are known to be; where they are more or fewer all images
 * end. */
const void *caf_mail_here(const struct caf_operation *operation, const struct caf_mail *mail, size_t length);

/* The bytes of a mail of this member, as many as they are known to be: where they lie there they are got into the room.
 */
const void *caf_mail_bytes(const struct caf_operation *operation, const struct caf_mail *mail, int member, void *room,
                           size_t length);

/* Begins to get the bytes of a mail that tells where they lie. */
gasnet_handle_t caf_mail_begin(const struct caf_operation *operation, const struct caf_mail *mail, int member,
                               void *room, size_t length);

void caf_mail_free(struct caf_mail *mail);

#endif
