/* Whether a signal's handler calls. What a signal interrupted may be anything, also the C library with a lock of its
 * own. */
#ifndef GASNETL_INTERRUPTS_H
#define GASNETL_INTERRUPTS_H

#include <stdbool.h>

/* Whether a frame of a signal's handler is among the callers of the calling function. Such frames are found by the
 * tables by which C++ unwinds a stack, which compilers write of C too; where a client leaves them out it isn't
 * known, and false. */
bool gasnetl_is_in_signal(void);

/* Has the process end with this status in so many seconds, where it is in a call that never ends. */
void gasnetl_end_late(unsigned seconds, int status);

#endif
