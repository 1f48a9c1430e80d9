/* Transfers between this image's memory and a section of another one's, by GASNet.
 *
 * Bytes of the far segment that lie together go by GASNet's puts and gets. Others go packed, as many in a message as it
 * takes; the far image's handler packs and unpacks them. So does memory outside the segment, as that of components. */
#ifndef CAF_FAR_H
#define CAF_FAR_H

#include "section.h"

/* Puts bytes into a section of a node. The bytes may be used again at the return; the section has them at the latest
 * when a settling returns. Puts and gets of one image that share bytes keep their order. */
void caf_store(int node, const struct caf_section *to, const void *bytes);

/* Gets a section of a node. */
void caf_fetch(int node, const struct caf_section *from, void *bytes);

/* Waits until this image's puts to a node, or to all of them, are complete. */
void caf_settle(int node);
void caf_settle_all(void);

#endif
