#include "sockets.h"

#include <errno.h>
#include <unistd.h>

#include "descriptors.h"

enum { WIDE = 4 << 20 }; /* bytes */

/* Asks for wide buffers. The system may give less. */
static void widen_buffers(int socket) {
    int bytes = WIDE;
    if (setsockopt(socket, SOL_SOCKET, SO_RCVBUFFORCE, &bytes, sizeof bytes))
        setsockopt(socket, SOL_SOCKET, SO_RCVBUF, &bytes, sizeof bytes);
    if (setsockopt(socket, SOL_SOCKET, SO_SNDBUFFORCE, &bytes, sizeof bytes))
        setsockopt(socket, SOL_SOCKET, SO_SNDBUF, &bytes, sizeof bytes);
}

int gasnetl_socket_bind(const struct sockaddr *address, socklen_t length) {
    int made = gasnetl_above_streams(socket(address->sa_family, SOCK_DGRAM | SOCK_CLOEXEC, 0));
    if (made < 0)
        return -1;
    widen_buffers(made);
    if (!bind(made, address, length))
        return made;
    int why = errno;
    close(made);
    errno = why;
    return -1;
}
