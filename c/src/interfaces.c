#include "interfaces.h"

#include <arpa/inet.h>
#include <ifaddrs.h>
#include <net/if.h>
#include <netinet/in.h>
#include <string.h>

/* Tells whether an interface's address is wanted. */
typedef bool wants(const struct ifaddrs *at, const char *word);

static const struct in6_addr *place6(const struct sockaddr *address) {
    return &((const struct sockaddr_in6 *)(const void *)address)->sin6_addr;
}

static bool is_up(const struct ifaddrs *at, int family) {
    return at->ifa_addr && at->ifa_addr->sa_family == family && at->ifa_flags & IFF_UP;
}

static bool is_this_address(const struct ifaddrs *at, const char *word) {
    char text[INET6_ADDRSTRLEN] = "";
    if (is_up(at, AF_INET))
        inet_ntop(AF_INET, &((const struct sockaddr_in *)(const void *)at->ifa_addr)->sin_addr, text, sizeof text);
    if (is_up(at, AF_INET6))
        inet_ntop(AF_INET6, place6(at->ifa_addr), text, sizeof text);
    return *text && !strcmp(text, word);
}

static bool has_name_and_v4(const struct ifaddrs *at, const char *word) {
    return is_up(at, AF_INET) && !strcmp(at->ifa_name, word);
}

static bool has_name_and_v6(const struct ifaddrs *at, const char *word) {
    return is_up(at, AF_INET6) && !strcmp(at->ifa_name, word) && !IN6_IS_ADDR_LINKLOCAL(place6(at->ifa_addr));
}

static bool is_beyond_host(const struct ifaddrs *at, const char *word) {
    (void)word;
    return is_up(at, AF_INET) && !(at->ifa_flags & IFF_LOOPBACK);
}

static bool find(const struct ifaddrs *list, wants *wanted, const char *word, struct sockaddr_storage *address,
                 socklen_t *length) {
    while (list && !wanted(list, word))
        list = list->ifa_next;
    if (!list)
        return false;
    *length = list->ifa_addr->sa_family == AF_INET ? sizeof(struct sockaddr_in) : sizeof(struct sockaddr_in6);
    memset(address, 0, sizeof *address);
    memcpy(address, list->ifa_addr, *length);
    return true;
}

bool gasnetl_interface_find(const char *word, struct sockaddr_storage *address, socklen_t *length) {
    struct in6_addr place;
    struct ifaddrs *list;
    char text[INET6_ADDRSTRLEN];
    if (getifaddrs(&list))
        return false;
    if (inet_pton(AF_INET6, word, &place) == 1) /* as the system writes it */
        word = inet_ntop(AF_INET6, &place, text, sizeof text);
    bool is_found = find(list, is_this_address, word, address, length) ||
                    find(list, has_name_and_v4, word, address, length) ||
                    find(list, has_name_and_v6, word, address, length);
    freeifaddrs(list);
    return is_found;
}

void gasnetl_interface_first(struct sockaddr_storage *address, socklen_t *length) {
    const struct sockaddr_in own = { .sin_family = AF_INET, .sin_addr.s_addr = htonl(INADDR_LOOPBACK) };
    struct ifaddrs *list = NULL;
    memset(address, 0, sizeof *address);
    memcpy(address, &own, sizeof own);
    *length = sizeof own;
    if (getifaddrs(&list))
        return;
    find(list, is_beyond_host, NULL, address, length);
    freeifaddrs(list);
}
