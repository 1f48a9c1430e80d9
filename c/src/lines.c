#include "lines.h"

#include <errno.h>
#include <fcntl.h>
#include <stdio.h>
#include <stdlib.h>
#include <string.h>
#include <unistd.h>

enum { FRONT = 16, LAST_READS = 4 };

/* A node's output is an even stream, its error the next one. */
static int target_of(int stream) { return stream % 2 ? STDERR_FILENO : STDOUT_FILENO; }

static bool open_stream(struct gasnetl_stream *stream) {
    int ends[2];
    stream->bytes = malloc(GASNETL_LINES_MOST);
    if (!stream->bytes || pipe2(ends, O_CLOEXEC) || fcntl(ends[0], F_SETFL, O_NONBLOCK))
        return false;
    stream->reads = ends[0];
    stream->writes = ends[1];
    return true;
}

bool gasnetl_lines_open(struct gasnetl_lines *lines, int first, int nodes) {
    lines->first = first;
    lines->nodes = nodes;
    for (int stream = 0; stream < 2 * nodes; stream++)
        if (!open_stream(&lines->of[stream]))
            return false;
    return true;
}

void gasnetl_lines_become(const struct gasnetl_lines *lines, int node) {
    for (int stream = 2 * node; stream < 2 * node + 2 && lines->nodes; stream++)
        if (dup2(lines->of[stream].writes, target_of(stream)) < 0)
            _exit(127);
}

void gasnetl_lines_start(struct gasnetl_lines *lines) {
    for (int stream = 0; stream < 2 * lines->nodes; stream++)
        close(lines->of[stream].writes);
}

nfds_t gasnetl_lines_await(const struct gasnetl_lines *lines, struct pollfd *ready) {
    for (int stream = 0; stream < 2 * lines->nodes; stream++)
        ready[stream] = (struct pollfd){ .fd = lines->of[stream].reads, .events = POLLIN };
    return (nfds_t)(2 * lines->nodes);
}

/* Waits where the output takes nothing now: another process that has it, as ssh, may have made it one that doesn't
 * wait. False where it takes nothing for another reason. */
static bool waits_for(int to) {
    struct pollfd ready = { .fd = to, .events = POLLOUT };
    return errno == EAGAIN && poll(&ready, 1, -1) > 0;
}

static void write_whole(int to, const char *bytes, size_t length) {
    for (size_t at = 0; at < length;) {
        ssize_t written = write(to, bytes + at, length - at);
        if (written > 0)
            at += (size_t)written;
        else if (!written || !waits_for(to))
            return;
    }
}

/* Writes a line of so many bytes, without its end, behind the rank of its node. */
static void write_line(const struct gasnetl_lines *lines, int stream, const char *bytes, size_t length) {
    char line[GASNETL_LINES_MOST + FRONT + 1];
    size_t count = (size_t)snprintf(line, FRONT, "%d: ", lines->first + stream / 2);
    memcpy(line + count, bytes, length);
    line[count + length] = '\n';
    write_whole(target_of(stream), line, count + length + 1);
}

/* Writes the lines that are whole, and a full buffer, and keeps the rest. */
static void write_lines(struct gasnetl_lines *lines, int stream) {
    struct gasnetl_stream *of = &lines->of[stream];
    char *begins = of->bytes, *ends;
    while ((ends = memchr(begins, '\n', of->length))) {
        write_line(lines, stream, begins, (size_t)(ends - begins));
        of->length -= (size_t)(ends + 1 - begins);
        begins = ends + 1;
    }
    memmove(of->bytes, begins, of->length);
    if (of->length < GASNETL_LINES_MOST)
        return;
    write_line(lines, stream, of->bytes, of->length);
    of->length = 0;
}

/* Takes once what a stream has. Whether it had something. */
static bool take(struct gasnetl_lines *lines, int stream) {
    struct gasnetl_stream *of = &lines->of[stream];
    ssize_t got = read(of->reads, of->bytes + of->length, GASNETL_LINES_MOST - of->length);
    if (got > 0)
        of->length += (size_t)got;
    write_lines(lines, stream);
    return got > 0;
}

void gasnetl_lines_take(struct gasnetl_lines *lines, const struct pollfd *ready) {
    for (int stream = 0; stream < 2 * lines->nodes; stream++) {
        struct gasnetl_stream *of = &lines->of[stream];
        if (ready[stream].revents && !take(lines, stream) && ready[stream].revents & POLLHUP) {
            close(of->reads);
            of->reads = -1;
        }
    }
}

void gasnetl_lines_end(struct gasnetl_lines *lines) {
    for (int stream = 0; stream < 2 * lines->nodes; stream++) {
        for (int reads = 0; reads < LAST_READS && lines->of[stream].reads >= 0 && take(lines, stream);)
            reads++;
        if (lines->of[stream].length)
            write_line(lines, stream, lines->of[stream].bytes, lines->of[stream].length);
    }
}
