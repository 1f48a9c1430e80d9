/* The addresses of this host, by the interfaces that have them. */
#ifndef GASNETL_INTERFACES_H
#define GASNETL_INTERFACES_H

#include <stdbool.h>
#include <sys/socket.h>

/* Writes the address that a word names: this address, where the host has it; else the first one of IPv4 of the
 * interface of this name, else its first one of IPv6 beyond the link. The port is 0. False where there is none. */
bool gasnetl_interface_find(const char *word, struct sockaddr_storage *address, socklen_t *length);

/* Writes the first address of IPv4 of an interface that isn't the loopback's; the loopback's where there is none. */
void gasnetl_interface_first(struct sockaddr_storage *address, socklen_t *length);

#endif
