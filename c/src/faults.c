#include "faults.h"

#include <stdlib.h>
#include <string.h>

#include "gasnet_c.h"

bool gasnetl_faults_start(struct gasnetl_faults *faults, const struct gasnetl_config *config, uint16_t me) {
    faults->drop = config->drop;
    faults->twice = config->twice;
    faults->swap = config->swap;
    faults->state = config->seed * 1000003 + me;
    faults->is_on = config->drop || config->twice || config->swap;
    faults->is_held = false;
    faults->held = faults->is_on ? malloc(GASNET_C_ROOM) : NULL;
    return faults->held || !faults->is_on;
}

/* The next random number (splitmix64). */
static uint64_t next(struct gasnetl_faults *faults) {
    uint64_t z = faults->state += 0x9e3779b97f4a7c15u;
    z = (z ^ (z >> 30)) * 0xbf58476d1ce4e5b9u;
    z = (z ^ (z >> 27)) * 0x94d049bb133111ebu;
    return z ^ (z >> 31);
}

static bool comes(struct gasnetl_faults *faults, unsigned percent) { return percent && next(faults) % 100 < percent; }

static void hold(struct gasnetl_faults *faults, uint16_t to, const void *bytes, size_t length) {
    memcpy(faults->held, bytes, length);
    faults->held_length = length;
    faults->held_to = to;
    faults->is_held = true;
}

void gasnetl_faults_send(struct gasnetl_faults *faults, gasnetl_sender *send, void *network, uint16_t to,
                         const void *bytes, size_t length) {
    if (comes(faults, faults->drop))
        return;
    if (!faults->is_held && length <= GASNET_C_ROOM && comes(faults, faults->swap)) {
        hold(faults, to, bytes, length);
        return;
    }
    send(network, to, bytes, length);
    if (comes(faults, faults->twice))
        send(network, to, bytes, length);
    if (faults->is_held) {
        faults->is_held = false;
        send(network, faults->held_to, faults->held, faults->held_length);
    }
}
