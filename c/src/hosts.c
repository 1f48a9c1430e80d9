#include "hosts.h"

#include <errno.h>
#include <stdio.h>
#include <stdlib.h>
#include <string.h>

#include "config.h"
#include "gasnet_c.h"

enum { FILE_BYTES = 1 << 16, PORT_BYTES = 9 }; /* of "[]:65535," */

static const char between[] = ", \t\r\n";

/* How many hosts a text has. */
static size_t count_of(const char *text) {
    size_t count = 0;
    for (text += strspn(text, between); *text; text += strspn(text, between)) {
        text += strcspn(text, between);
        count++;
    }
    return count;
}

/* Writes the addresses of a text's hosts, where rank 0 has this port. Room for them is there. */
static void write_addresses(char *at, const char *text, unsigned port) {
    for (text += strspn(text, between); *text; text += strspn(text, between)) {
        int length = (int)strcspn(text, between);
        const char *form = memchr(text, ':', (size_t)length) ? "[%.*s]:%u," : "%.*s:%u,";
        at += sprintf(at, form, length, text, port++);
        text += length;
    }
    at[-1] = 0;
}

/* Makes addresses of the hosts of a text. Why it can't; NULL where it did. */
static const char *take_hosts(struct gasnetl_hosts *hosts, const char *text, uint64_t port) {
    size_t count = count_of(text);
    if (!count || count > GASNET_C_MAX_NODES)
        return "it has no host, or more than 256";
    hosts->addresses = malloc(strlen(text) + count * PORT_BYTES + 1);
    if (!hosts->addresses)
        return "there is no memory";
    write_addresses(hosts->addresses, text, (unsigned)port);
    hosts->count = (uint16_t)count;
    return NULL;
}

/* The bytes of a file; NULL where it can't be read, or has more than there is room for. */
static char *bytes_of(FILE *file) {
    char *text = malloc(FILE_BYTES);
    if (!text)
        return NULL;
    size_t length = fread(text, 1, FILE_BYTES, file);
    if (ferror(file) || length == FILE_BYTES) {
        free(text);
        return NULL;
    }
    text[length] = 0;
    return text;
}

/* Makes addresses of the hosts of a file. */
static const char *take_file(struct gasnetl_hosts *hosts, const char *path, uint64_t port) {
    FILE *file = fopen(path, "r");
    if (!file)
        return strerror(errno);
    char *text = bytes_of(file);
    fclose(file);
    const char *why = text ? take_hosts(hosts, text, port) : "it can't be read, or is longer than 65,535 bytes";
    free(text);
    return why;
}

/* Finds the variable, and makes addresses of what it says. */
static const char *take(struct gasnetl_hosts *hosts, uint64_t port) {
    static const char *const names[] = { "GASNET_ADDRESSES", "GASNET_HOSTS", "GASNET_HOSTS_FILE" };
    const char *text = NULL;
    for (int i = 0; !text && i < 3; i++) {
        hosts->variable = names[i];
        text = getenv(names[i]);
    }
    if (!text)
        hosts->variable = NULL;
    if (!text || hosts->variable == names[1])
        return text ? take_hosts(hosts, text, port) : NULL;
    if (hosts->variable == names[2])
        return take_file(hosts, text, port);
    hosts->addresses = strdup(text);
    return hosts->addresses ? NULL : "there is no memory";
}

bool gasnetl_hosts_ask(struct gasnetl_hosts *hosts) {
    uint64_t port;
    memset(hosts, 0, sizeof *hosts);
    if (!gasnetl_config_number("GASNET_PORT", 1024, 65535 - GASNET_C_MAX_NODES, 21000, &port))
        return false;
    const char *why = take(hosts, port);
    if (why)
        fprintf(stderr, "gasnet: %s is broken: %s; set it to a host for each node, by rank\n", hosts->variable, why);
    return !why;
}
