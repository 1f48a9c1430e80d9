/* Descriptors of the layer's own, and the sleep on them.
 *
 * They stand above those of the standard streams, which a client may replace at any time, also where it was started
 * without them. No function here is a point of cancellation, as most of the C library's for descriptors are: a thread
 * that is cancelled within a call would keep what it has in hand, the turn too. */
#ifndef GASNETL_DESCRIPTORS_H
#define GASNETL_DESCRIPTORS_H

#include <poll.h>
#include <stdbool.h>
#include <stdint.h>

/* Puts a new descriptor above those of the standard streams, where it isn't; it is closed in programs that the process
 * becomes. Answers its number; -1 where there is none, or it is -1 already, with errno. */
int gasnetl_above_streams(int descriptor);

/* An event: a descriptor that wakes who sleeps on it, from its raising until it is lowered. -1 where the system has
 * none, with errno. */
int gasnetl_event_new(void);

/* Raise and lower it. Where the system refuses, as it does once the client has closed the descriptor, they answer
 * false, with errno. */
bool gasnetl_event_raise(int event);
bool gasnetl_event_lower(int event);

/* Sleeps until one of these is ready, a signal comes, or the time is over. How many are ready; 0 or less for none. */
int gasnetl_sleep_on(struct pollfd *ready, unsigned count, uint64_t microseconds);

#endif
