/* Plain UDP round trips over 127.0.0.1, by one of two sides.
 *
 *     datagrams answer PORT COUNT [BYTES]            answers COUNT datagrams, each with one of 40 bytes
 *     datagrams ask PORT COUNT WINDOW [BYTES]        sends COUNT datagrams there, at most WINDOW of them unanswered
 *
 * Each datagram that is answered has BYTES bytes, from 40 to 8,296; 44 where that isn't given. The side that asks prints the milliseconds from its first send to its last answer. A side that waits for a second for a datagram ends
 * with status 1. */
#include <arpa/inet.h>
#include <stdio.h>
#include <stdlib.h>
#include <string.h>
#include <sys/socket.h>
#include <sys/time.h>
#include <time.h>

enum { ASKED = 44, ANSWERED = 40, MOST = 8296, ROOM = MOST + 1, BUFFER = 1 << 22 };

static double milliseconds(void)
{
    struct timespec now;
    clock_gettime(CLOCK_MONOTONIC, &now);
    return now.tv_sec * 1e3 + now.tv_nsec / 1e6;
}

static struct sockaddr_in address(int port)
{
    struct sockaddr_in at = {.sin_family = AF_INET, .sin_port = htons(port)};
    at.sin_addr.s_addr = htonl(INADDR_LOOPBACK);
    return at;
}

static int has_room(int socket_of)
{
    int bytes = BUFFER;
    return setsockopt(socket_of, SOL_SOCKET, SO_RCVBUF, &bytes, sizeof bytes);
}

static int answer(int port, long count, long asked)
{
    struct sockaddr_in at = address(port), from;
    int socket_of = socket(AF_INET, SOCK_DGRAM, 0);
    struct timeval second = {.tv_sec = 1};
    char room[ROOM], back[ANSWERED] = {0};
    setsockopt(socket_of, SOL_SOCKET, SO_RCVTIMEO, &second, sizeof second);
    if (has_room(socket_of) != 0 || bind(socket_of, (struct sockaddr *)&at, sizeof at) != 0)
        return 1;
    puts("ready");
    fflush(stdout);
    for (long number = 0; number < count; number++) {
        socklen_t size = sizeof from;
        if (recvfrom(socket_of, room, ROOM, 0, (struct sockaddr *)&from, &size) != asked)
            return 1;
        memcpy(back, room, ANSWERED);
        if (sendto(socket_of, back, ANSWERED, 0, (struct sockaddr *)&from, size) != ANSWERED)
            return 1;
    }
    return 0;
}

static int ask(int port, long count, long window, long asked)
{
    struct sockaddr_in to = address(port);
    int socket_of = socket(AF_INET, SOCK_DGRAM, 0);
    struct timeval second = {.tv_sec = 1};
    static char request[MOST], room[ROOM];
    setsockopt(socket_of, SOL_SOCKET, SO_RCVTIMEO, &second, sizeof second);
    double begin = milliseconds();
    for (long sent = 0, answered = 0; answered < count; answered++) {
        for (; sent < count && sent - answered < window; sent++)
            if (sendto(socket_of, request, asked, 0, (struct sockaddr *)&to, sizeof to) != asked)
                return 1;
        if (recvfrom(socket_of, room, ROOM, 0, NULL, NULL) != ANSWERED)
            return 1;
    }
    printf("%.3f\n", milliseconds() - begin);
    return 0;
}

int main(int count, char **words)
{
    int is_answer = count > 1 && strcmp(words[1], "answer") == 0, needed = is_answer ? 4 : 5;
    if (count != needed && count != needed + 1)
        return 2;
    long asked = count > needed ? atol(words[needed]) : ASKED;
    if (asked < ANSWERED || MOST < asked)
        return 2;
    if (is_answer)
        return answer(atoi(words[2]), atol(words[3]), asked);
    return strcmp(words[1], "ask") == 0 ? ask(atoi(words[2]), atol(words[3]), atol(words[4]), asked) : 2;
}
