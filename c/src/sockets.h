/* Datagram sockets, as nodes and gasnetrun make them. */
#ifndef GASNETL_SOCKETS_H
#define GASNETL_SOCKETS_H

#include <sys/socket.h>

/* Makes a datagram socket for this address, with a wide receive buffer. -1 where that fails, with errno. */
int gasnetl_socket_bind(const struct sockaddr *address, socklen_t length);

#endif
