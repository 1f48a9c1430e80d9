/* A way between two network namespaces on which each packet takes some milliseconds: relay PID PID MILLISECONDS. Each
 * of the two processes' namespaces gets a device way0; the packets that go into the one come out of the other, in
 * order. It writes "ready", and at TERM the counts of the requests that it carried, as requests.h has them. */
#include <errno.h>
#include <fcntl.h>
#include <linux/if.h>
#include <linux/if_tun.h>
#include <poll.h>
#include <sched.h>
#include <signal.h>
#include <sys/ioctl.h>
#include <time.h>
#include <unistd.h>

#include "requests.h"

enum { ROOM = 1 << 14, MOST_BYTES = 1 << 11, MOST_AT_ONCE = 64 };

struct packet {
    int64_t due; /* in nanoseconds */
    int to;
    size_t length;
    uint8_t bytes[MOST_BYTES];
};

static struct packet packets[ROOM];
static uint64_t first, behind; /* those that are on their way, modulo ROOM */
static uint64_t lost;
static volatile sig_atomic_t is_over;

static void end(int signal) {
    (void)signal;
    is_over = 1;
}

static int64_t now(void) {
    struct timespec time;
    clock_gettime(CLOCK_MONOTONIC, &time);
    return (int64_t)time.tv_sec * 1000000000 + time.tv_nsec;
}

static void need(int holds, const char *what) {
    if (!holds) {
        perror(what);
        exit(2);
    }
}

/* The end of a device way0 in the namespace of a process. */
static int device(const char *process) {
    char path[64];
    snprintf(path, sizeof path, "/proc/%s/ns/net", process);
    int space = open(path, O_RDONLY | O_CLOEXEC);
    need(space >= 0 && !setns(space, CLONE_NEWNET), path);
    close(space);
    struct ifreq way = { .ifr_flags = IFF_TUN | IFF_NO_PI, .ifr_name = "way0" };
    int made = open("/dev/net/tun", O_RDWR | O_NONBLOCK | O_CLOEXEC);
    need(made >= 0 && !ioctl(made, TUNSETIFF, &way), "/dev/net/tun");
    return made;
}

/* Takes a packet from one end; whether there was one. */
static int take(struct requests *requests, int from, int to, int64_t delay) {
    struct packet *packet = &packets[behind % ROOM];
    ssize_t got = read(from, packet->bytes, sizeof packet->bytes);
    if (got <= 0)
        return 0;
    requests_packet(requests, packet->bytes, (size_t)got);
    packet->due = now() + delay;
    packet->to = to;
    packet->length = (size_t)got;
    if (behind + 1 - first < ROOM)
        behind++;
    else
        lost++;
    return 1;
}

static void give_due(void) {
    for (; first < behind && packets[first % ROOM].due <= now(); first++) {
        const struct packet *packet = &packets[first % ROOM];
        if (write(packet->to, packet->bytes, packet->length) < 0)
            lost++;
    }
}

/* Waits until a packet is there, or one is due. */
static void wait_for_packets(struct pollfd *ends) {
    int64_t left = first < behind ? packets[first % ROOM].due - now() : 1000000000;
    struct timespec time = { 0, left > 0 ? (left < 999999999 ? left : 999999999) : 0 };
    ppoll(ends, 2, &time, NULL);
}

static void carry(struct requests *requests, struct pollfd *ends, int64_t delay) {
    for (int i = 0; i < MOST_AT_ONCE; i++)
        if (take(requests, ends[0].fd, ends[1].fd, delay) + take(requests, ends[1].fd, ends[0].fd, delay) == 0)
            break;
    give_due();
}

int main(int argc, char **argv) {
    struct requests requests;
    struct sigaction action = { .sa_handler = end };
    if (argc != 4)
        return 2;
    struct pollfd ends[] = { { .fd = device(argv[1]), .events = POLLIN }, { .fd = device(argv[2]), .events = POLLIN } };
    requests_start(&requests);
    sigaction(SIGTERM, &action, NULL);
    printf("ready\n");
    fflush(stdout);
    while (!is_over) {
        wait_for_packets(ends);
        carry(&requests, ends, (int64_t)(atof(argv[3]) * 1e6));
    }
    requests_tell(&requests);
    printf("lost %llu\n", (unsigned long long)lost);
    return 0;
}
