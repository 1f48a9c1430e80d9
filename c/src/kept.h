/* Datagrams that wait for the client: their delivery runs a handler of its own, and came while none may run. */
#ifndef GASNETL_KEPT_H
#define GASNETL_KEPT_H

#include <stddef.h>
#include <stdint.h>

#include "network.h"

enum { GASNETL_KEPT = 64 }; /* how many wait at most */

struct gasnetl_kept {
    unsigned first, count;  /* those that wait, in the order in which they came */
    uint64_t kept, dropped; /* how many were kept, and how many found no room */
    struct gasnetl_kept_datagram {
        size_t length;
        uint8_t bytes[GASNETL_DATAGRAM];
    } of[GASNETL_KEPT];
};

/* Keeps a copy of a datagram behind the others, unless one with the same header waits already. Where there is no room
 * for it it is lost, as a network loses it: its sender sends it again. */
void gasnetl_keep(struct gasnetl_kept *kept, const uint8_t *bytes, size_t length);

/* Takes the first one. Its bytes, which stay until the next datagram is kept, and how many they are; NULL where none
 * waits. */
const uint8_t *gasnetl_kept_take(struct gasnetl_kept *kept, size_t *length);

#endif
