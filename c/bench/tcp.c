/* The same by plain sockets of TCP, one connection for each sender.
 *   tcp take PORT COUNT        takes all that so many senders have, at once: the seconds
 *   tcp give HOST PORT MIB     is such a sender
 *   tcp serve PORT COUNT       answers each message of so many connections, one after the other, by a byte
 *   tcp ask HOST PORT SIZE DEPTH SECONDS
 *                              sends it messages, DEPTH of them unanswered: mean and median of the trips, and MB/s */
#include <arpa/inet.h>
#include <netinet/in.h>
#include <netinet/tcp.h>
#include <poll.h>
#include <stdint.h>
#include <stdio.h>
#include <stdlib.h>
#include <string.h>
#include <sys/socket.h>
#include <time.h>
#include <unistd.h>

enum { MIB = 1 << 20, MOST_SENDERS = 64, MOST_TRIPS = 1 << 20, TRIES = 500 };

static char bytes[MIB];

static double seconds(void) {
    struct timespec time;
    clock_gettime(CLOCK_MONOTONIC, &time);
    return (double)time.tv_sec + (double)time.tv_nsec * 1e-9;
}

static void need(int holds, const char *what) {
    if (!holds) {
        perror(what);
        exit(1);
    }
}

static struct sockaddr_in address(const char *host, const char *port) {
    struct sockaddr_in made = { .sin_family = AF_INET, .sin_port = htons((uint16_t)atoi(port)) };
    need(inet_pton(AF_INET, host, &made.sin_addr) == 1, host);
    return made;
}

static void hurry(int socket) {
    int yes = 1;
    setsockopt(socket, IPPROTO_TCP, TCP_NODELAY, &yes, sizeof yes);
}

static int listening(const char *port) {
    struct sockaddr_in own = address("0.0.0.0", port);
    int yes = 1, made = socket(AF_INET, SOCK_STREAM, 0);
    setsockopt(made, SOL_SOCKET, SO_REUSEADDR, &yes, sizeof yes);
    need(!bind(made, (struct sockaddr *)&own, sizeof own) && !listen(made, MOST_SENDERS), "listen");
    return made;
}

/* A connection to a process that may only be starting. */
static int connected(const char *host, const char *port) {
    struct sockaddr_in other = address(host, port);
    for (int i = 0; i < TRIES; i++) {
        int made = socket(AF_INET, SOCK_STREAM, 0);
        if (!connect(made, (struct sockaddr *)&other, sizeof other)) {
            hurry(made);
            return made;
        }
        close(made);
        usleep(10000);
    }
    perror("connect");
    exit(1);
}

static void send_all(int socket, const char *from, size_t length) {
    for (ssize_t sent; length; from += sent, length -= (size_t)sent)
        need((sent = send(socket, from, length, MSG_NOSIGNAL)) > 0, "send");
}

/* Whether so many bytes came before the end. */
static int receive_all(int socket, char *to, size_t length) {
    for (ssize_t got; length; to += got, length -= (size_t)got)
        if ((got = recv(socket, to, length, 0)) <= 0)
            return 0;
    return 1;
}

/* Takes what is there of each connection. How many of them are open still. */
static int take_some(struct pollfd *senders, int count) {
    int open = 0;
    need(poll(senders, (nfds_t)count, -1) >= 0, "poll");
    for (int i = 0; i < count; i++) {
        if (senders[i].revents && recv(senders[i].fd, bytes, sizeof bytes, 0) <= 0)
            senders[i].fd = -1;
        open += senders[i].fd >= 0;
    }
    return open;
}

static void take(const char *port, int count) {
    struct pollfd senders[MOST_SENDERS];
    int listener = listening(port);
    need(count > 0 && count <= MOST_SENDERS, "count");
    for (int i = 0; i < count; i++) {
        senders[i] = (struct pollfd){ .fd = accept(listener, NULL, NULL), .events = POLLIN };
        need(senders[i].fd >= 0, "accept");
    }
    double begun = seconds();
    for (int i = 0; i < count; i++)
        send_all(senders[i].fd, "", 1);
    while (take_some(senders, count))
        ;
    printf("tcp %.4f s\n", seconds() - begun);
}

static void give(const char *host, const char *port, int mib) {
    int socket = connected(host, port);
    need(receive_all(socket, bytes, 1), "go");
    for (int i = 0; i < mib; i++)
        send_all(socket, bytes, sizeof bytes);
    shutdown(socket, SHUT_WR);
    receive_all(socket, bytes, 1);
}

static void serve_one(int socket) {
    uint32_t size;
    hurry(socket);
    if (!receive_all(socket, (char *)&size, sizeof size) || size > sizeof bytes)
        return;
    while (receive_all(socket, bytes, size))
        send_all(socket, "", 1);
    close(socket);
}

static void serve(const char *port, int count) {
    int listener = listening(port);
    for (int i = 0; i < count; i++)
        serve_one(accept(listener, NULL, NULL));
}

static int by_value(const void *a, const void *b) {
    double x = *(const double *)a, y = *(const double *)b;
    return (x > y) - (x < y);
}

/* Tells of so many trips, which took so many seconds in all. */
static void tell(double *trips, int count, double whole, uint32_t size) {
    double sum = 0;
    for (int i = 0; i < count; i++)
        sum += trips[i];
    qsort(trips, (size_t)count, sizeof *trips, by_value);
    printf("round trip %.2f us\nmedian round trip %.2f us\nrate %.3f MB/s\n", sum / count * 1e6, trips[count / 2] * 1e6,
           (double)size * count / whole / 1e6);
}

static void ask(int socket, uint32_t size, int depth, double time) {
    static double sent[MOST_TRIPS], trips[MOST_TRIPS];
    double begun = seconds(), now = begun;
    int out = 0, back = 0;
    send_all(socket, (char *)&size, sizeof size);
    while (back < out || (now - begun < time && out < MOST_TRIPS)) {
        for (; out < back + depth && out < MOST_TRIPS && now - begun < time; out++) {
            sent[out] = seconds();
            send_all(socket, bytes, size);
        }
        need(receive_all(socket, bytes, 1), "answer");
        now = seconds();
        trips[back] = now - sent[back];
        back++;
    }
    tell(trips, back, now - begun, size);
}

int main(int argc, char **argv) {
    const char *what = argc > 1 ? argv[1] : "";
    if (!strcmp(what, "take") && argc == 4)
        take(argv[2], atoi(argv[3]));
    else if (!strcmp(what, "give") && argc == 5)
        give(argv[2], argv[3], atoi(argv[4]));
    else if (!strcmp(what, "serve") && argc == 4)
        serve(argv[2], atoi(argv[3]));
    else if (!strcmp(what, "ask") && argc == 7 && atoi(argv[4]) <= MIB && atoi(argv[5]) > 0)
        ask(connected(argv[2], argv[3]), (uint32_t)atoi(argv[4]), atoi(argv[5]), atof(argv[6]));
    else
        return 2;
    return 0;
}
