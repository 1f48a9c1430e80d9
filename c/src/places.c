#include "places.h"

#include <arpa/inet.h>
#include <ctype.h>
#include <errno.h>
#include <netdb.h>
#include <netinet/in.h>
#include <stdarg.h>
#include <stdio.h>
#include <stdlib.h>
#include <string.h>

enum { PORTS = 65536, WORD = 300 };

static uint16_t port_of(const struct sockaddr_storage *address) {
    if (address->ss_family == AF_INET)
        return ntohs(((const struct sockaddr_in *)address)->sin_port);
    return ntohs(((const struct sockaddr_in6 *)address)->sin6_port);
}

static bool is_same_host(const struct sockaddr_storage *a, const struct sockaddr_storage *b) {
    if (a->ss_family != b->ss_family)
        return false;
    if (a->ss_family == AF_INET)
        return ((const struct sockaddr_in *)a)->sin_addr.s_addr == ((const struct sockaddr_in *)b)->sin_addr.s_addr;
    return !memcmp(&((const struct sockaddr_in6 *)a)->sin6_addr, &((const struct sockaddr_in6 *)b)->sin6_addr,
                   sizeof(struct in6_addr));
}

/* Cuts a word HOST:PORT or [HOST]:PORT in two. */
static bool cut(char *word, char **host, char **port) {
    char *colon = strrchr(word, ':');
    if (!colon || colon == word || !colon[1])
        return false;
    *colon = 0;
    *port = colon + 1;
    *host = word;
    if (*word == '[' && colon[-1] == ']') {
        colon[-1] = 0;
        *host = word + 1;
    }
    return true;
}

static bool say(struct gasnetl_why *why, const char *format, ...) __attribute__((format(printf, 2, 3)));

/* Writes what is wrong; false. */
static bool say(struct gasnetl_why *why, const char *format, ...) {
    va_list values;
    va_start(values, format);
    vsnprintf(why->text, sizeof why->text, format, values);
    va_end(values);
    return false;
}

static bool is_port(const char *text) {
    char *end;
    unsigned long port = strtoul(text, &end, 10);
    return isdigit((unsigned char)*text) && !*end && port && port < PORTS;
}

/* Asks for the address of a host and a port: one of this family where there is one, else any. The answer of
 * getaddrinfo. */
static int ask(const char *host, const char *port, int family, struct addrinfo **found) {
    struct addrinfo wanted = { .ai_family = family, .ai_socktype = SOCK_DGRAM, .ai_flags = AI_NUMERICSERV };
    int code = getaddrinfo(host, port, &wanted, found);
    wanted.ai_family = AF_UNSPEC;
    return code && family != AF_UNSPEC ? getaddrinfo(host, port, &wanted, found) : code;
}

/* Reads a word HOST:PORT, which `whole` has uncut, to an address of this family. */
static bool read_place(struct gasnetl_place *place, char *word, int family, struct gasnetl_why *why) {
    char whole[WORD], *host, *port;
    struct addrinfo *found;
    snprintf(whole, sizeof whole, "%s", word);
    if (!cut(word, &host, &port))
        return say(why, "'%s' in it isn't HOST:PORT", whole);
    if (!is_port(port))
        return say(why, "the port of '%s' in it isn't a number from 1 to 65535", whole);
    int code = ask(host, port, family, &found);
    if (code)
        return say(why, "the host of '%s' in it isn't known (%s)", whole, gai_strerror(code));
    memcpy(&place->address, found->ai_addr, found->ai_addrlen);
    place->length = found->ai_addrlen;
    freeaddrinfo(found);
    if (family != AF_UNSPEC && place->address.ss_family != family)
        return say(why, "'%s' in it is of IPv%d, and the first address of IPv%d, so no datagram goes between the two",
                   whole, family == AF_INET ? 6 : 4, family == AF_INET ? 4 : 6);
    return true;
}

/* Enters a node behind the others of its port; false where one of them has its address. */
static bool enter(struct gasnetl_places *places, uint16_t node) {
    struct gasnetl_place *place = &places->of[node];
    uint16_t *at = &places->first[port_of(&place->address)];
    for (; *at != GASNETL_NO_NODE; at = &places->of[*at].next)
        if (is_same_host(&places->of[*at].address, &place->address))
            return false;
    place->next = GASNETL_NO_NODE;
    *at = node;
    return true;
}

/* The length of the first word; the text goes on behind its comma. */
static size_t first_word(const char **text, char *word) {
    size_t length = strcspn(*text, ",");
    size_t kept = length < WORD ? length : WORD - 1;
    memcpy(word, *text, kept);
    word[kept] = 0;
    *text += length + ((*text)[length] == ',');
    return length;
}

/* Reads the address of the next node from the text. */
static bool read_next(struct gasnetl_places *places, uint16_t node, const char **text, struct gasnetl_why *why) {
    char word[WORD], whole[WORD];
    int family = node ? places->of[0].address.ss_family : AF_UNSPEC;
    if (!**text)
        return say(why, "it has fewer addresses than nodes");
    if (first_word(text, word) >= WORD)
        return say(why, "a word of it is longer than %d letters", WORD - 1);
    memcpy(whole, word, sizeof whole);
    if (!read_place(&places->of[node], word, family, why))
        return false;
    return enter(places, node) || say(why, "two of its addresses are the same: '%s' is that of two nodes", whole);
}

bool gasnetl_places_read(struct gasnetl_places *places, uint16_t nodes, const char *text, struct gasnetl_why *why) {
    places->nodes = nodes;
    places->of = calloc(nodes, sizeof *places->of);
    places->first = malloc(PORTS * sizeof *places->first);
    if (!places->of || !places->first)
        return say(why, "there is no memory");
    memset(places->first, 0xff, PORTS * sizeof *places->first);
    for (uint16_t node = 0; node < nodes; node++)
        if (!read_next(places, node, &text, why))
            return false;
    return !*text || say(why, "it has more addresses than nodes");
}

const char *gasnetl_place_remedy(int error) {
    if (error == EADDRNOTAVAIL)
        return "this host has no such address: see that GASNET_RANK is this host's place in the list, and that the "
               "name there leads to an address of it";
    if (error == EADDRINUSE)
        return "another process has the port: set GASNET_PORT, or those of GASNET_ADDRESSES, to others on all nodes";
    if (error == EACCES)
        return "the port is kept for the system: take one from 1024 on";
    return "see what the system says of it";
}

uint16_t gasnetl_places_find(const struct gasnetl_places *places, const struct sockaddr_storage *address) {
    if (address->ss_family != AF_INET && address->ss_family != AF_INET6)
        return GASNETL_NO_NODE;
    uint16_t node = places->first[port_of(address)];
    while (node != GASNETL_NO_NODE && !is_same_host(&places->of[node].address, address))
        node = places->of[node].next;
    return node;
}

bool gasnetl_places_share_host(const struct gasnetl_places *places, uint16_t one, uint16_t other) {
    return is_same_host(&places->of[one].address, &places->of[other].address);
}

void gasnetl_place_write(const struct sockaddr_storage *address, char *text, size_t room) {
    char host[INET6_ADDRSTRLEN] = "?";
    if (address->ss_family == AF_INET)
        inet_ntop(AF_INET, &((const struct sockaddr_in *)address)->sin_addr, host, sizeof host);
    else
        inet_ntop(AF_INET6, &((const struct sockaddr_in6 *)address)->sin6_addr, host, sizeof host);
    snprintf(text, room, address->ss_family == AF_INET ? "%s:%u" : "[%s]:%u", host, port_of(address));
}
