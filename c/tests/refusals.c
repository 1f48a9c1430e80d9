/* The system tells a node that hosts refused many datagrams of its socket, as anybody can make it by ICMP, while the
 * node doesn't look. What it sends, and what came to it, goes on none the less. The test sends to a port that nobody
 * has. */
#define GASNET_SEQ 1
#include <arpa/inet.h>
#include <sys/socket.h>
#include <unistd.h>

#include "check.h"

enum { ROUNDS = 20, REFUSED = 200 };

/* A port of this host that was free just now. */
static struct sockaddr_in nobody(void) {
    struct sockaddr_in address = { .sin_family = AF_INET, .sin_addr.s_addr = htonl(INADDR_LOOPBACK) };
    socklen_t length = sizeof address;
    int made = socket(AF_INET, SOCK_DGRAM, 0);
    CHECK(!bind(made, (struct sockaddr *)&address, length));
    CHECK(!getsockname(made, (struct sockaddr *)&address, &length));
    close(made);
    return address;
}

/* Sends datagrams that are refused. Where a call is told of the one before it fails, and sends nothing: so the last one
 * is tried until it goes. */
static void be_refused(int socket, const struct sockaddr_in *to) {
    for (int sent = 0; sent < REFUSED;)
        sent += sendto(socket, "", 1, MSG_DONTWAIT, (const struct sockaddr *)to, sizeof *to) > 0;
}

int main(int argc, char **argv) {
    const int socket = atoi(getenv("GASNET_SOCKET")); /* gasnetrun's name for it */
    start(&argc, &argv, NULL, 0, GASNET_PAGESIZE);
    const struct sockaddr_in to = nobody();
    barrier();
    for (int round = 0; round < ROUNDS; round++) {
        be_refused(socket, &to);
        gasnet_put_val(next(), at(next(), 8), (gasnet_register_value_t)round, 8);
        CHECK(gasnet_get_val(next(), at(next(), 8), 8) == (gasnet_register_value_t)round);
        barrier();
    }
    gasnet_exit(0);
}
