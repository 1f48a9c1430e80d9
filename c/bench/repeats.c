/* Counts the requests that come to the devices of this network namespace, until TERM: how many, how many again, and how
 * often one at most. It sees what is lost behind the device too. It writes "ready" once it looks. Linux alone. */
#include <arpa/inet.h>
#include <linux/filter.h>
#include <linux/if_ether.h>
#include <linux/if_packet.h>
#include <signal.h>
#include <sys/socket.h>
#include <sys/time.h>

#include "requests.h"

enum { HEAD = 128, BUFFER = 512 << 20 };

static volatile sig_atomic_t is_over;

static void end(int signal) {
    (void)signal;
    is_over = 1;
}

/* Packets of IPv4 that came, and none that goes; the front of each. */
static void choose(int socket) {
    struct sock_filter code[] = {
        BPF_STMT(BPF_LD | BPF_B | BPF_ABS, (uint32_t)(SKF_AD_OFF + SKF_AD_PKTTYPE)),
        BPF_JUMP(BPF_JMP | BPF_JEQ | BPF_K, PACKET_OUTGOING, 3, 0),
        BPF_STMT(BPF_LD | BPF_H | BPF_ABS, (uint32_t)(SKF_AD_OFF + SKF_AD_PROTOCOL)),
        BPF_JUMP(BPF_JMP | BPF_JEQ | BPF_K, ETH_P_IP, 0, 1),
        BPF_STMT(BPF_RET | BPF_K, HEAD),
        BPF_STMT(BPF_RET | BPF_K, 0),
    };
    struct sock_fprog program = { sizeof code / sizeof *code, code };
    setsockopt(socket, SOL_SOCKET, SO_ATTACH_FILTER, &program, sizeof program);
}

static int looking(void) {
    struct timeval most = { .tv_usec = 100000 }; /* a signal that came just before a look waits so long */
    int bytes = BUFFER, made = socket(AF_PACKET, SOCK_DGRAM, 0);
    struct sockaddr_ll all = { .sll_family = AF_PACKET, .sll_protocol = htons(ETH_P_ALL) };
    if (made < 0)
        exit(2);
    choose(made);
    setsockopt(made, SOL_SOCKET, SO_RCVBUFFORCE, &bytes, sizeof bytes);
    setsockopt(made, SOL_SOCKET, SO_RCVTIMEO, &most, sizeof most);
    if (bind(made, (struct sockaddr *)&all, sizeof all))
        exit(2);
    return made;
}

static unsigned missed(int socket) {
    struct tpacket_stats seen = { 0 };
    socklen_t length = sizeof seen;
    getsockopt(socket, SOL_PACKET, PACKET_STATISTICS, &seen, &length);
    return seen.tp_drops;
}

int main(void) {
    struct requests requests;
    struct sigaction action = { .sa_handler = end };
    int socket = looking();
    requests_start(&requests);
    sigaction(SIGTERM, &action, NULL);
    printf("ready\n");
    fflush(stdout);
    while (!is_over) {
        uint8_t packet[HEAD];
        ssize_t got = recv(socket, packet, sizeof packet, 0);
        if (got > 0)
            requests_packet(&requests, packet, (size_t)got);
    }
    requests_tell(&requests);
    printf("missed %u\n", missed(socket));
    return 0;
}
