/* Counts the requests in IPv4 packets: how many there were, how many of them again, and how often the one was there
 * that was there most. A request is known by its job, sender, receiver and number (docs/FORMATS.md, "The datagram").
 * The packet with its header counts: a datagram in several fragments is one. */
#ifndef REQUESTS_H
#define REQUESTS_H

#include <stdint.h>
#include <stdio.h>
#include <stdlib.h>
#include <string.h>

enum { REQUESTS_ROOM = 1 << 22, REQUEST_HEADER = 40, UDP_HEADER = 8, LAST_REQUEST_KIND = 2, UDP_PROTOCOL = 17 };

struct request {
    uint64_t job, number;
    uint32_t way, times; /* sender and receiver; 0 times where the place is free */
};

struct requests {
    struct request *places; /* REQUESTS_ROOM of them */
    uint64_t all, different;
    uint32_t most;
};

static inline void requests_start(struct requests *requests) {
    *requests = (struct requests){ .places = calloc(REQUESTS_ROOM, sizeof *requests->places) };
    if (!requests->places)
        exit(1);
}

/* Where a request stands, or may. */
static inline struct request *request_place(struct requests *requests, const struct request *one) {
    uint64_t at = (one->job ^ one->number * 0x9e3779b97f4a7c15u ^ (uint64_t)one->way << 32) * 0xbf58476d1ce4e5b9u >> 20;
    for (;; at++) {
        struct request *place = &requests->places[at % REQUESTS_ROOM];
        if (!place->times || (place->job == one->job && place->number == one->number && place->way == one->way))
            return place;
    }
}

static inline void requests_add(struct requests *requests, const struct request *one) {
    struct request *place = request_place(requests, one);
    if (!place->times) {
        *place = *one;
        if (++requests->different > REQUESTS_ROOM / 2) {
            fprintf(stderr, "requests: too many\n");
            exit(1);
        }
    }
    requests->all++;
    if (++place->times > requests->most)
        requests->most = place->times;
}

/* Counts the request that a packet has, where it has one. */
static inline void requests_packet(struct requests *requests, const uint8_t *packet, size_t length) {
    static const uint8_t magic[] = { 'G', 'A', 'M' };
    size_t header = length ? 4 * (size_t)(packet[0] & 15) : 0, at = header + UDP_HEADER;
    if (length < at + REQUEST_HEADER || packet[0] >> 4 != 4 || packet[9] != UDP_PROTOCOL || (packet[6] & 0x1f) ||
        packet[7])
        return;
    packet += at;
    if (memcmp(packet, magic, sizeof magic) || packet[4] > LAST_REQUEST_KIND)
        return;
    struct request one = { 0 };
    memcpy(&one.job, packet + 8, sizeof one.job);
    memcpy(&one.way, packet + 16, sizeof one.way);
    memcpy(&one.number, packet + 24, sizeof one.number);
    requests_add(requests, &one);
}

static inline void requests_tell(const struct requests *requests) {
    printf("requests %llu\nrepeats %llu\nmost %u\n", (unsigned long long)requests->all,
           (unsigned long long)(requests->all - requests->different), requests->most);
}

#endif
