#include "paths.h"

#include <netinet/in.h>
#include <stdbool.h>
#include <unistd.h>

#include "messages.h"

enum {
    USUAL_MTU = 1500, /* of an Ethernet */
    IPV4_HEADER = 20,
    IPV6_HEADER = 40,
    UDP_HEADER = 8,      /* without options */
    MESSAGE_HEADER = 40, /* of the endpoint's (docs/FORMATS.md) */
    ARGUMENTS = 4 * GASNETL_ARGS,
    GRAIN = 8,
    LEAST_CHUNK = 512
};

static bool is_ipv6(const struct gasnetl_network *network, uint16_t node) {
    return network->places.of[node].address.ss_family == AF_INET6;
}

/* A socket of the local host that is connected to a node: nothing is sent. -1 where there is no way. */
static int probe(const struct gasnetl_network *network, uint16_t node) {
    const struct gasnetl_place *to = &network->places.of[node];
    struct sockaddr_storage own = network->places.of[network->me].address;
    int made = socket(to->address.ss_family, SOCK_DGRAM | SOCK_CLOEXEC, 0);
    if (made < 0)
        return -1;
    if (own.ss_family == AF_INET6)
        ((struct sockaddr_in6 *)&own)->sin6_port = 0;
    else
        ((struct sockaddr_in *)&own)->sin_port = 0;
    /* The way may depend on the local address. */
    if (own.ss_family != to->address.ss_family ||
        bind(made, (struct sockaddr *)&own, network->places.of[network->me].length) ||
        connect(made, (const struct sockaddr *)&to->address, to->length)) {
        close(made);
        return -1;
    }
    return made;
}

uint32_t gasnetl_path_mtu(const struct gasnetl_network *network, uint16_t node) {
    int made = probe(network, node), mtu = 0;
    socklen_t length = sizeof mtu;
    if (made < 0)
        return USUAL_MTU;
    bool is_known = is_ipv6(network, node) ? !getsockopt(made, IPPROTO_IPV6, IPV6_MTU, &mtu, &length)
                                           : !getsockopt(made, IPPROTO_IP, IP_MTU, &mtu, &length);
    close(made);
    return is_known && mtu > 0 ? (uint32_t)mtu : USUAL_MTU;
}

/* The bytes of a packet's headers, and of what a key adds. */
static uint32_t bytes_around(const struct gasnetl_network *network, uint16_t node) {
    return (is_ipv6(network, node) ? IPV6_HEADER : IPV4_HEADER) + UDP_HEADER +
           (network->seals.is_set ? GASNETL_SEAL_BYTES : 0);
}

/* The greatest payload that stands behind so many bytes of a message in a packet. */
static uint32_t payload_behind(const struct gasnetl_network *network, uint16_t node, uint32_t mtu, uint32_t front) {
    front += bytes_around(network, node) + (network->seals.is_set ? GASNETL_LENGTH_BYTES : 0);
    uint32_t payload = mtu > front ? (mtu - front) / GRAIN * GRAIN : 0;
    if (payload < LEAST_CHUNK)
        return LEAST_CHUNK;
    return payload < GASNET_C_PAYLOAD ? payload : GASNET_C_PAYLOAD;
}

uint32_t gasnetl_path_chunk(const struct gasnetl_network *network, uint16_t node, uint32_t mtu) {
    return payload_behind(network, node, mtu, MESSAGE_HEADER);
}

uint32_t gasnetl_path_message(const struct gasnetl_network *network, uint16_t node, uint32_t mtu) {
    return payload_behind(network, node, mtu, MESSAGE_HEADER + ARGUMENTS);
}

uint32_t gasnetl_path_packet(const struct gasnetl_network *network, uint16_t node, uint32_t mtu) {
    const uint32_t around = bytes_around(network, node), most = GASNETL_SEALED_MOST - GASNETL_SEAL_BYTES;
    if (mtu <= around)
        return 0;
    return mtu - around < most ? mtu - around : most;
}

uint64_t gasnetl_path_buffer(const struct gasnetl_network *network, unsigned peers) {
    int told = 0;
    socklen_t length = sizeof told;
    if (getsockopt(network->socket, SOL_SOCKET, SO_RCVBUF, &told, &length) || told < 0)
        told = 0;
    uint64_t each = (uint64_t)told / 2 / (peers ? peers : 1);
    return each > GASNETL_DATAGRAM ? each : GASNETL_DATAGRAM;
}
