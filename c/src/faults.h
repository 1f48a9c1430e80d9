/* Faults of a network, put in below the socket: datagrams that are lost, sent twice, or overtaken by the next one. */
#ifndef GASNETL_FAULTS_H
#define GASNETL_FAULTS_H

#include <stdbool.h>
#include <stddef.h>
#include <stdint.h>

#include "config.h"

struct gasnetl_faults {
    unsigned drop, twice, swap; /* percent */
    uint64_t state;             /* of the random numbers */
    bool is_on;
    bool is_held; /* a datagram waits for the next one */
    uint16_t held_to;
    size_t held_length;
    uint8_t *held;
};

/* Sends bytes to a node. */
typedef void gasnetl_sender(void *network, uint16_t to, const void *bytes, size_t length);

/* Makes the faults that the configuration asks for, those of this node. False where there is no memory. */
bool gasnetl_faults_start(struct gasnetl_faults *faults, const struct gasnetl_config *config, uint16_t me);

/* Sends a datagram through the faults: never, once or twice, or after the next one. */
void gasnetl_faults_send(struct gasnetl_faults *faults, gasnetl_sender *send, void *network, uint16_t to,
                         const void *bytes, size_t length);

#endif
