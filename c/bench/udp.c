/* Round trips of plain datagrams of 40 bytes over loopback, looked for as the layer does (looks that don't wait, then a
 * poll). One that isn't back after 20 ms is lost, and the next one goes. The mean and the median of those that came
 * back: udp [SECONDS]. */
#include <arpa/inet.h>
#include <netinet/in.h>
#include <poll.h>
#include <signal.h>
#include <stdint.h>
#include <stdio.h>
#include <stdlib.h>
#include <string.h>
#include <sys/socket.h>
#include <sys/wait.h>
#include <time.h>
#include <unistd.h>

enum { BYTES = 40, LOOKS = 400, PATIENCE = 20, MOST = 1 << 20 };

static double seconds(void) {
    struct timespec time;
    clock_gettime(CLOCK_MONOTONIC, &time);
    return (double)time.tv_sec + (double)time.tv_nsec * 1e-9;
}

static int bound(struct sockaddr_in *address) {
    socklen_t length = sizeof *address;
    int made = socket(AF_INET, SOCK_DGRAM, 0);
    *address = (struct sockaddr_in){ .sin_family = AF_INET, .sin_addr.s_addr = htonl(INADDR_LOOPBACK) };
    if (bind(made, (struct sockaddr *)address, length) || getsockname(made, (struct sockaddr *)address, &length))
        exit(1);
    return made;
}

/* Takes a datagram; 0 where none came for so many milliseconds, -1 for ever. */
static int take(int socket, char *bytes, int patience) {
    for (int look = 0; look < LOOKS; look++)
        if (recv(socket, bytes, BYTES, MSG_DONTWAIT) == BYTES)
            return 1;
    struct pollfd wanted = { .fd = socket, .events = POLLIN };
    return poll(&wanted, 1, patience) > 0 && recv(socket, bytes, BYTES, MSG_DONTWAIT) == BYTES;
}

static void give(int socket, const char *bytes, const struct sockaddr_in *to) {
    sendto(socket, bytes, BYTES, MSG_DONTWAIT, (const struct sockaddr *)to, sizeof *to);
}

static void answer(int socket, const struct sockaddr_in *to) {
    char bytes[BYTES];
    for (;;)
        if (take(socket, bytes, -1))
            give(socket, bytes, to);
}

/* Whether the answer with this number came. */
static int trip(int socket, const struct sockaddr_in *to, uint32_t number) {
    char bytes[BYTES] = { 0 };
    uint32_t got = number + 1;
    memcpy(bytes, &number, sizeof number);
    give(socket, bytes, to);
    while (got != number && take(socket, bytes, PATIENCE))
        memcpy(&got, bytes, sizeof got);
    return got == number;
}

static int by_value(const void *a, const void *b) {
    double x = *(const double *)a, y = *(const double *)b;
    return (x > y) - (x < y);
}

static void measure(int socket, const struct sockaddr_in *to, double time) {
    static double trips[MOST];
    double begun = seconds(), sum = 0;
    uint32_t count = 0, lost = 0;
    while (seconds() - begun < time && count + lost < MOST) {
        double sent = seconds();
        if (!trip(socket, to, count + lost)) {
            lost++;
            continue;
        }
        trips[count] = seconds() - sent;
        sum += trips[count++];
    }
    qsort(trips, count, sizeof *trips, by_value);
    printf("round trip %.2f us\nmedian round trip %.2f us\nlost %.2f percent\n", sum / count * 1e6,
           trips[count / 2] * 1e6, 100.0 * lost / (count + lost));
}

int main(int argc, char **argv) {
    struct sockaddr_in a, b;
    int one = bound(&a), other = bound(&b);
    pid_t child = fork();
    if (!child)
        answer(other, &a);
    measure(one, &b, argc > 1 ? atof(argv[1]) : 1);
    kill(child, SIGKILL);
    waitpid(child, NULL, 0);
    return 0;
}
