/* What ends a segment of an image. */
#ifndef CAF_SYNCHRONISE_H
#define CAF_SYNCHRONISE_H

struct caf_team;

/* Completes this image's puts, waits for the members, and notes the bounds of coarrays that were allocated before.
 * Answers as caf_barrier does. */
int caf_sync_team(struct caf_team *team);

#endif
