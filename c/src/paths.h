/* The ways to the peers: the greatest packet that goes on each of them in one piece, what a chunk may then have, and
 * the bytes that the local socket takes before somebody reads them. */
#ifndef GASNETL_PATHS_H
#define GASNETL_PATHS_H

#include <stdint.h>

#include "network.h"

/* The MTU of the way to a node, as the system knows it of a socket that is connected to it: the bytes of an IP packet.
 * It is 1,500 where the system knows none. */
uint32_t gasnetl_path_mtu(const struct gasnetl_network *network, uint16_t node);

/* The greatest payload of a chunk to a node whose datagram is one packet of this MTU: a multiple of 8, at least 512
 * bytes, at most GASNET_C_PAYLOAD. A put's chunk and a get's reply have 40 bytes before their payload, and no
 * arguments. */
uint32_t gasnetl_path_chunk(const struct gasnetl_network *network, uint16_t node, uint32_t mtu);

/* The same of a message, which may have arguments before its payload. It is never less than 512 bytes. */
uint32_t gasnetl_path_message(const struct gasnetl_network *network, uint16_t node, uint32_t mtu);

/* The bytes that a key seals for one packet of this MTU to a node. */
uint32_t gasnetl_path_packet(const struct gasnetl_network *network, uint16_t node, uint32_t mtu);

/* The bytes that each of so many peers may have on the way to this node, so that all of them fit into the socket's
 * receive buffer. The system tells twice what datagrams may have there, since it counts what it needs for itself. At
 * least those of one datagram. */
uint64_t gasnetl_path_buffer(const struct gasnetl_network *network, unsigned peers);

#endif
