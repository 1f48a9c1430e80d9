/* Collectives of all images that are the endpoint's (gasnet_coll.h): short reductions where the images are few, and all
 * where GASNET_CAF_PROVED is 1, which is so at all images or at none. Each image sends to each other one, once for each
 * piece. */
#ifndef CAF_ALL_IMAGES_H
#define CAF_ALL_IMAGES_H

#include <stdbool.h>
#include <stddef.h>

#include "combine.h"
#include "mail.h"

/* Whether a part of so many bytes is combined so. All members of the team find the same. */
bool caf_all_images_reduces(const struct caf_team *team, size_t length);

/* Whether so many bytes go so from one image to all. All members of the team find the same. */
bool caf_all_images_broadcasts(const struct caf_team *team, size_t length);

/* Combines the parts of all images, the one of the first image first, where each of them is. Where an image is absent,
 * it stops the operation, and leaves the part as it was. */
void caf_all_images_reduce(struct caf_operation *operation, const struct caf_combiner *combiner, void *part,
                           size_t count);

/* Each image gets the source's bytes, where each of them is. Where an image is absent, it stops the operation, and
 * leaves the bytes as they were. The source is a member, from 0. */
void caf_all_images_broadcast(struct caf_operation *operation, int source, void *bytes, size_t length);

#endif
