/* What two processes over loopback can do with plain UDP: round trips of 40 bytes, looked for as the layer does (looks
 * that don't wait, then a poll), and a stream of 8,232-byte datagrams with one system call each, 32 of them out at
 * most, each answered by 40 bytes. */
#include <arpa/inet.h>
#include <poll.h>
#include <signal.h>
#include <stdint.h>
#include <stdio.h>
#include <stdlib.h>
#include <string.h>
#include <sys/socket.h>
#include <sys/wait.h>
#include <time.h>
#include <unistd.h>

enum { SMALL = 40, LARGE = 8232, TRIPS = 20000, STREAM = 32768, OUT = 32, LOOKS = 400 };

static int own;
static struct sockaddr_in peer;

static double seconds(void) {
    struct timespec time;
    clock_gettime(CLOCK_MONOTONIC, &time);
    return (double)time.tv_sec + (double)time.tv_nsec * 1e-9;
}

static int bound(struct sockaddr_in *address) {
    socklen_t length = sizeof *address;
    int bytes = 4 << 20, made = socket(AF_INET, SOCK_DGRAM, 0);
    memset(address, 0, sizeof *address);
    address->sin_family = AF_INET;
    address->sin_addr.s_addr = htonl(INADDR_LOOPBACK);
    setsockopt(made, SOL_SOCKET, SO_RCVBUF, &bytes, sizeof bytes);
    setsockopt(made, SOL_SOCKET, SO_SNDBUF, &bytes, sizeof bytes);
    if (bind(made, (struct sockaddr *)address, length) || getsockname(made, (struct sockaddr *)address, &length))
        exit(1);
    return made;
}

static void give(size_t bytes) {
    static uint8_t buffer[LARGE];
    sendto(own, buffer, bytes, MSG_DONTWAIT, (struct sockaddr *)&peer, sizeof peer);
}

static size_t take(void) {
    static uint8_t buffer[LARGE];
    for (int look = 0;; look++) {
        struct sockaddr_in from;
        socklen_t length = sizeof from;
        ssize_t got = recvfrom(own, buffer, sizeof buffer, MSG_DONTWAIT, (struct sockaddr *)&from, &length);
        if (got > 0)
            return (size_t)got;
        if (look >= LOOKS)
            poll(&(struct pollfd){ .fd = own, .events = POLLIN }, 1, 1);
    }
}

static void answer(void) {
    for (;;) {
        take();
        give(SMALL);
    }
}

static int by_value(const void *a, const void *b) {
    double x = *(const double *)a, y = *(const double *)b;
    return (x > y) - (x < y);
}

static void measure(void) {
    static double times[TRIPS];
    for (int i = 0; i < TRIPS; i++) {
        double begun = seconds();
        give(SMALL);
        take();
        times[i] = seconds() - begun;
    }
    qsort(times, TRIPS, sizeof *times, by_value);
    printf("plain round trip %.2f us (median of %d)\n", times[TRIPS / 2] * 1e6, TRIPS);
    double begun = seconds();
    for (int i = 0; i < STREAM + OUT; i++) {
        if (i >= OUT)
            take();
        if (i < STREAM)
            give(LARGE);
    }
    printf("plain stream %.0f MB/s, of 8 KiB payloads\n", STREAM * 8192.0 / (seconds() - begun) / 1e6);
}

int main(void) {
    struct sockaddr_in a, b;
    int one = bound(&a), other = bound(&b);
    pid_t child = fork();
    own = child ? one : other;
    peer = child ? b : a;
    if (!child)
        answer();
    measure();
    kill(child, SIGKILL);
    waitpid(child, NULL, 0);
    return 0;
}
