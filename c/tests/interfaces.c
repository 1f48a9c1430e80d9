/* The addresses that GASNET_INTERFACE may name: by the interface, or the address itself. It looks at the layer's own
 * function, since a process manager is all that asks for it. */
#include <arpa/inet.h>
#include <netinet/in.h>

#include "../src/interfaces.h"
#include "check.h"

static const char *found(const char *word) {
    static char text[INET6_ADDRSTRLEN];
    struct sockaddr_storage address;
    socklen_t length;
    if (!gasnetl_interface_find(word, &address, &length))
        return "none";
    if (address.ss_family == AF_INET6)
        return inet_ntop(AF_INET6, &((struct sockaddr_in6 *)&address)->sin6_addr, text, sizeof text);
    return inet_ntop(AF_INET, &((struct sockaddr_in *)&address)->sin_addr, text, sizeof text);
}

int main(void) {
    CHECK(!strcmp(found("lo"), "127.0.0.1"));
    CHECK(!strcmp(found("127.0.0.1"), "127.0.0.1"));
    CHECK(!strcmp(found("nowhere0"), "none"));
    CHECK(!strcmp(found(""), "none"));
    CHECK(!strcmp(found("192.0.2.7"), "none")); /* of documents: no host has it */
    return 0;
}
