#include "network.h"

#include <errno.h>
#include <fcntl.h>
#include <linux/errqueue.h>
#include <netinet/in.h>
#include <netinet/udp.h>
#include <stdio.h>
#include <string.h>
#include <sys/syscall.h>
#include <unistd.h>

#include "sockets.h"
#include "words.h"

/* What the C library has of these is a point of cancellation: that costs where the process has a second thread. */
static ssize_t send_message(int socket, const struct msghdr *message) {
    return syscall(SYS_sendmsg, socket, message, MSG_DONTWAIT);
}

static ssize_t receive_message(int socket, struct msghdr *message) {
    return syscall(SYS_recvmsg, socket, message, MSG_DONTWAIT);
}

static int receive_messages(int socket, struct mmsghdr *messages, int most) {
    return (int)syscall(SYS_recvmmsg, socket, messages, most, MSG_DONTWAIT, NULL);
}

static ssize_t send_to(int socket, const void *bytes, size_t length, const struct gasnetl_place *place) {
    return syscall(SYS_sendto, socket, bytes, length, MSG_DONTWAIT, place ? &place->address : NULL,
                   place ? place->length : 0);
}

enum { FRONT = 96 }; /* the bytes of a refused datagram that are looked at */

/* Whether an entry of the error queue says that nobody has the socket. Others say what is wrong with the way. */
static bool is_refusal(struct msghdr *message) {
    for (struct cmsghdr *part = CMSG_FIRSTHDR(message); part; part = CMSG_NXTHDR(message, part)) {
        struct sock_extended_err error;
        if (!(part->cmsg_level == IPPROTO_IP && part->cmsg_type == IP_RECVERR) &&
            !(part->cmsg_level == IPPROTO_IPV6 && part->cmsg_type == IPV6_RECVERR))
            continue;
        memcpy(&error, CMSG_DATA(part), sizeof error);
        return error.ee_errno == ECONNREFUSED;
    }
    return false;
}

/* Hands on the front of a datagram that came back, or, where it was sealed, of its first message. */
static void hand_back(struct gasnetl_network *network, uint16_t node, uint8_t *front, size_t length) {
    const size_t before = network->seals.is_set ? GASNETL_LENGTH_BYTES : 0;
    const uint8_t *bytes = network->seals.is_set ? gasnetl_uncover(&network->seals, node, front, &length) : front;
    if (bytes && length > before)
        network->came_back(network->job, node, bytes + before, length - before);
}

/* Takes ICMP's messages: port unreachable, with the front of the datagram that was refused. */
static void take_refusals(struct gasnetl_network *network) {
    for (int taken = 0; taken < GASNETL_STRAYS; taken++) {
        struct sockaddr_storage address;
        _Alignas(struct cmsghdr) char control[512];
        uint8_t front[FRONT];
        struct iovec bytes = { front, sizeof front };
        struct msghdr message = { .msg_name = &address,
                                  .msg_namelen = sizeof address,
                                  .msg_iov = &bytes,
                                  .msg_iovlen = 1,
                                  .msg_control = control,
                                  .msg_controllen = sizeof control };
        ssize_t got = recvmsg(network->socket, &message, MSG_ERRQUEUE | MSG_DONTWAIT);
        if (got < 0)
            return;
        uint16_t node = gasnetl_places_find(&network->places, &address);
        if (node != GASNETL_NO_NODE && network->came_back && is_refusal(&message))
            hand_back(network, node, front, (size_t)got);
    }
}

/* Asks the system for ICMP's messages about what the socket sent. */
static void tell_refusals(struct gasnetl_network *network) {
    int yes = 1;
    if (network->places.of[network->me].address.ss_family == AF_INET6)
        setsockopt(network->socket, IPPROTO_IPV6, IPV6_RECVERR, &yes, sizeof yes);
    else
        setsockopt(network->socket, IPPROTO_IP, IP_RECVERR, &yes, sizeof yes);
}

/* Asks the system to send and to receive groups: Linux does, from 5.0 on. */
static void ask_for_groups(struct gasnetl_network *network) {
    int yes = 1, each;
    socklen_t length = sizeof each;
    for (int node = 0; node < network->places.nodes; node++)
        network->single_from[node] = SIZE_MAX;
    network->has_groups = !getsockopt(network->socket, IPPROTO_UDP, UDP_SEGMENT, &each, &length) &&
                          !setsockopt(network->socket, IPPROTO_UDP, UDP_GRO, &yes, sizeof yes);
}

/* Takes the socket that the node was started with. */
static bool take_given(struct gasnetl_network *network, int socket) {
    int type;
    socklen_t length = sizeof type;
    if (getsockopt(socket, SOL_SOCKET, SO_TYPE, &type, &length) || fcntl(socket, F_SETFD, FD_CLOEXEC)) {
        fprintf(stderr, "gasnet: GASNET_SOCKET is %d, which is no socket: unset it\n", socket);
        return false;
    }
    network->socket = socket;
    return true;
}

static bool take_socket(struct gasnetl_network *network, int socket) {
    const struct gasnetl_place *own = &network->places.of[network->me];
    char text[80];
    if (socket >= 0)
        return take_given(network, socket);
    network->socket = gasnetl_socket_bind((const struct sockaddr *)&own->address, own->length);
    if (network->socket >= 0)
        return true;
    int why = errno;
    gasnetl_place_write(&own->address, text, sizeof text);
    fprintf(stderr, "gasnet: node %u can't have the address %s (%s): %s\n", network->me, text, strerror(why),
            gasnetl_place_remedy(why));
    return false;
}

/* Whether the socket is bound to the node's own address, and not to all of the host's. */
static bool has_own_address(const struct gasnetl_network *network) {
    struct sockaddr_storage address = { 0 };
    socklen_t length = sizeof address;
    return !getsockname(network->socket, (struct sockaddr *)&address, &length) &&
           gasnetl_places_find(&network->places, &address) == network->me;
}

/* Where a job has two nodes the socket is for the other one alone: so the system looks for the way once, and not for
 * each datagram. */
static void connect_to_only_peer(struct gasnetl_network *network) {
    if (network->places.nodes != 2 || !has_own_address(network))
        return;
    const struct gasnetl_place *peer = &network->places.of[1 - network->me];
    network->is_connected = !connect(network->socket, (const struct sockaddr *)&peer->address, peer->length);
}

bool gasnetl_network_open(struct gasnetl_network *network, const struct gasnetl_config *config,
                          const struct gasnetl_start *start) {
    network->me = start->me;
    if (!gasnetl_key_read(&network->seals) ||
        !gasnetl_seals_start(&network->seals, start->me, start->nodes, start->job) ||
        !take_socket(network, start->socket))
        return false;
    tell_refusals(network);
    ask_for_groups(network);
    connect_to_only_peer(network);
    if (gasnetl_faults_start(&network->faults, config, start->me))
        return true;
    fprintf(stderr, "gasnet: node %u has no memory\n", start->me);
    return false;
}

/* ---- What is sent. */

/* Sends bytes as datagrams of as many bytes each, to the node to which the socket is connected where `place` is NULL.
 */
static ssize_t send_group(struct gasnetl_network *network, const struct gasnetl_place *place, const void *bytes,
                          size_t length, size_t each) {
    struct iovec all = { (void *)(uintptr_t)bytes, length };
    _Alignas(struct cmsghdr) char control[CMSG_SPACE(sizeof(uint16_t))] = { 0 };
    struct msghdr message = { .msg_name = place ? (void *)(uintptr_t)&place->address : NULL,
                              .msg_namelen = place ? place->length : 0,
                              .msg_iov = &all,
                              .msg_iovlen = 1,
                              .msg_control = control,
                              .msg_controllen = sizeof control };
    struct cmsghdr *cut = CMSG_FIRSTHDR(&message);
    const uint16_t size = (uint16_t)each;
    *cut = (struct cmsghdr){ .cmsg_len = CMSG_LEN(sizeof size), .cmsg_level = IPPROTO_UDP, .cmsg_type = UDP_SEGMENT };
    memcpy(CMSG_DATA(cut), &size, sizeof size);
    return send_message(network->socket, &message);
}

static ssize_t send_once(struct gasnetl_network *network, uint16_t to, const void *bytes, size_t length, size_t each) {
    const struct gasnetl_place *place = network->is_connected ? NULL : &network->places.of[to];
    if (each < length)
        return send_group(network, place, bytes, length, each);
    return send_to(network->socket, bytes, length, place);
}

/* The same; whether the system took them. */
static bool send_bytes(struct gasnetl_network *network, uint16_t to, const void *bytes, size_t length, size_t each) {
    if (send_once(network, to, bytes, length, each) >= 0)
        return true;
    if (errno == EAGAIN)
        return false;
    /* The error may be of an earlier datagram. It is told once; another one waits for each refusal that isn't taken. */
    const bool is_sent = send_once(network, to, bytes, length, each) >= 0;
    const int why = errno;
    take_refusals(network);
    errno = why;
    return is_sent;
}

/* Sends the datagrams that wait one by one. */
static void send_singly(struct gasnetl_network *network) {
    const struct gasnetl_going *going = &network->going;
    for (size_t at = going->first, length; at < going->end; at += length) {
        length = going->end - at < going->each ? going->end - at : going->each;
        if (send_bytes(network, going->to, going->bytes + at, length, length))
            network->sent++;
        else
            network->unsent++;
    }
}

/* Whether the way has no room for the datagrams of a group, or a device on it can't cut them. */
static bool is_no_way_for_groups(int error) {
    return error == EMSGSIZE || error == EINVAL || error == EIO || error == EOPNOTSUPP;
}

/* Sends what waits; the next datagram may stand behind it already. */
static void send_waiting(struct gasnetl_network *network) {
    struct gasnetl_going *going = &network->going;
    if (!going->count)
        return;
    if (going->count == 1)
        send_singly(network);
    else if (send_bytes(network, going->to, going->bytes + going->first, going->end - going->first, going->each))
        network->sent += going->count;
    else if (!is_no_way_for_groups(errno))
        network->unsent += going->count;
    else {
        network->single_from[going->to] = going->each;
        send_singly(network);
    }
    going->count = 0;
    going->first = going->end;
}

/* Whether a datagram of so many bytes may go with those that wait. */
static bool may_join(const struct gasnetl_network *network, uint16_t to, size_t length) {
    const struct gasnetl_going *going = &network->going;
    bool is_even = going->end - going->first == going->count * going->each;
    return network->has_groups && going->to == to && length <= going->each && going->each < network->single_from[to] &&
           is_even && going->count < GASNETL_GROUP && going->end - going->first + length <= GASNETL_GROUP_BYTES;
}

/* A datagram stands behind those that wait. */
static void stands_behind(struct gasnetl_network *network, uint16_t to, size_t length) {
    struct gasnetl_going *going = &network->going;
    if (going->count && !may_join(network, to, length))
        send_waiting(network);
    if (!going->count++) {
        going->to = to;
        going->each = length;
    }
    going->end += length;
}

/* Seals the messages that wait for that, as one datagram. A group that has no room for another such one goes at once.
 */
static void seal_filling(struct gasnetl_network *network) {
    struct gasnetl_filling *filling = &network->filling;
    struct gasnetl_going *going = &network->going;
    const size_t length = filling->end - filling->first;
    if (!length)
        return;
    if (sizeof going->bytes - going->end < GASNETL_SEALED_MOST)
        send_waiting(network);
    if (!going->count)
        going->first = going->end = 0;
    const size_t sealed =
        gasnetl_seal(&network->seals, filling->to, going->bytes + going->end, filling->bytes + filling->first, length);
    filling->first = filling->end;
    if (sealed)
        stands_behind(network, filling->to, sealed);
    else
        network->unsent++;
    if (going->count && !may_join(network, going->to, going->each))
        send_waiting(network);
}

void gasnetl_network_flush(struct gasnetl_network *network) {
    seal_filling(network);
    send_waiting(network);
    network->going.first = network->going.end = 0;
    network->filling.first = network->filling.end = 0;
}

uint8_t *gasnetl_network_room(struct gasnetl_network *network) {
    const bool is_sealed = network->seals.is_set;
    const size_t end = is_sealed ? network->filling.end : network->going.end;
    if (2 * GASNETL_GROUP_BYTES - end < GASNETL_DATAGRAM)
        gasnetl_network_flush(network);
    if (is_sealed)
        return network->filling.bytes + network->filling.end + GASNETL_LENGTH_BYTES;
    return network->going.bytes + network->going.end;
}

/* Whether a message of so many bytes may go with those that wait to be sealed. */
static bool may_fill(const struct gasnetl_network *network, uint16_t to, size_t length) {
    const struct gasnetl_filling *filling = &network->filling;
    return filling->to == to && filling->end - filling->first + GASNETL_LENGTH_BYTES + length <= network->packet[to];
}

/* Puts a message, which stands behind those that wait to be sealed, into their datagram, or into the next one. One that
 * has no room for another such message is sealed at once. */
static void fill(struct gasnetl_network *network, uint16_t to, size_t length) {
    struct gasnetl_filling *filling = &network->filling;
    if (!may_fill(network, to, length))
        seal_filling(network);
    gasnetl_word_write(filling->bytes + filling->end, length, GASNETL_LENGTH_BYTES);
    filling->to = to;
    filling->end += GASNETL_LENGTH_BYTES + length;
    if (may_fill(network, to, length))
        return;
    seal_filling(network);
    filling->first = filling->end = 0;
}

/* Puts a datagram behind those that wait. */
static void put_behind(void *at, uint16_t to, const void *bytes, size_t length) {
    struct gasnetl_network *network = at;
    uint8_t *place = gasnetl_network_room(network);
    if (bytes != place)
        memcpy(place, bytes, length);
    if (network->seals.is_set)
        fill(network, to, length);
    else
        stands_behind(network, to, length);
}

void gasnetl_network_send(struct gasnetl_network *network, uint16_t to, const void *bytes, size_t length) {
    if (network->faults.is_on)
        gasnetl_faults_send(&network->faults, put_behind, network, to, bytes, length);
    else
        put_behind(network, to, bytes, length);
}

/* ---- What comes. */

/* The bytes of a datagram of those that a message has, where there may be several; else all of them. */
static size_t bytes_of_one(struct msghdr *message, size_t got) {
    for (struct cmsghdr *part = CMSG_FIRSTHDR(message); part; part = CMSG_NXTHDR(message, part)) {
        int each;
        if (part->cmsg_level != IPPROTO_UDP || part->cmsg_type != UDP_GRO)
            continue;
        memcpy(&each, CMSG_DATA(part), sizeof each);
        return each > 0 ? (size_t)each : got;
    }
    return got;
}

/* Notes what a message of the system brought. Those of strangers are dropped and counted. */
static void note_arrival(struct gasnetl_network *network, struct gasnetl_arrival *arrival, struct msghdr *message,
                         size_t got) {
    arrival->first = arrival->end = arrival->message = arrival->last = 0;
    arrival->from = gasnetl_places_find(&network->places, message->msg_name);
    if (arrival->from == GASNETL_NO_NODE || arrival->from == network->me || !got) {
        network->strays++;
        return;
    }
    arrival->end = got;
    arrival->each = bytes_of_one(message, got);
}

/* What a call of the system fills in of an arrival. */
struct reception {
    struct sockaddr_storage address;
    struct iovec bytes;
    _Alignas(struct cmsghdr) char control[64];
};

static void make_ready(struct reception *reception, struct msghdr *message, struct gasnetl_arrival *arrival) {
    reception->bytes = (struct iovec){ arrival->bytes, GASNETL_TRAIN_BYTES };
    *message = (struct msghdr){ .msg_name = &reception->address,
                                .msg_namelen = sizeof reception->address,
                                .msg_iov = &reception->bytes,
                                .msg_iovlen = 1,
                                .msg_control = reception->control,
                                .msg_controllen = sizeof reception->control };
}

/* Asks the system for one arrival: how many came, or -1 with errno. */
static int receive_one(struct gasnetl_network *network) {
    struct gasnetl_arrival *arrival = network->coming.of;
    struct reception reception;
    struct msghdr message;
    make_ready(&reception, &message, arrival);
    ssize_t got = receive_message(network->socket, &message);
    if (got < 0)
        return -1;
    note_arrival(network, arrival, &message, (size_t)got);
    return 1;
}

/* The same for up to `most`. */
static int receive_many(struct gasnetl_network *network, int most) {
    struct gasnetl_arrival *arrivals = network->coming.of;
    struct reception receptions[GASNETL_ARRIVALS];
    struct mmsghdr messages[GASNETL_ARRIVALS];
    for (int i = 0; i < most; i++)
        make_ready(&receptions[i], &messages[i].msg_hdr, &arrivals[i]);
    int got = receive_messages(network->socket, messages, most);
    for (int i = 0; i < got; i++)
        note_arrival(network, &arrivals[i], &messages[i].msg_hdr, messages[i].msg_len);
    return got;
}

/* How many arrivals the next call asks for, where this one asked for `most`: more where as many came, and the call
 * before found some too. A long train is enough for one call. */
static int next_most(const struct gasnetl_coming *coming, int most, int got) {
    enum { SHORT = 4096 };
    if (got <= 0 || !coming->count || coming->of[0].end > SHORT)
        return 1;
    if (got < most)
        return got;
    return 2 * most < GASNETL_ARRIVALS ? 2 * most : GASNETL_ARRIVALS;
}

static int receive_up_to(struct gasnetl_network *network, int most) {
    return most > 1 ? receive_many(network, most) : receive_one(network);
}

/* Asks the system for datagrams: false where there are none. An error is of a datagram that was sent, and hides what
 * came; whoever can send ICMP makes as many as he likes. So it asks once more before it takes the refusals. */
static bool receive_more(struct gasnetl_network *network) {
    struct gasnetl_coming *coming = &network->coming;
    int most = coming->most > 1 ? coming->most : 1, got = receive_up_to(network, most);
    const bool is_error = got < 0 && errno != EAGAIN;
    if (is_error)
        got = receive_up_to(network, most);
    coming->most = next_most(coming, most, got);
    coming->next = 0;
    coming->count = got > 0 ? (unsigned)got : 0;
    network->is_lost = got < 0 && (errno == EBADF || errno == ENOTSOCK);
    if (network->is_lost)
        return false;
    if (is_error)
        take_refusals(network);
    return is_error || got >= 0;
}

/* Whether datagrams of an arrival, or messages of one of these, weren't taken yet. */
static bool has_more(const struct gasnetl_arrival *arrival) {
    return arrival->first < arrival->end || arrival->message < arrival->last;
}

/* The arrival that is taken from; NULL where all were taken. */
static struct gasnetl_arrival *arrival_now(struct gasnetl_coming *coming) {
    while (coming->next < coming->count && !has_more(&coming->of[coming->next]))
        coming->next++;
    return coming->next < coming->count ? &coming->of[coming->next] : NULL;
}

bool gasnetl_network_has_more(struct gasnetl_network *network) { return arrival_now(&network->coming); }

/* The same, where the system has more; NULL where it hasn't. */
static struct gasnetl_arrival *next_arrival(struct gasnetl_network *network) {
    struct gasnetl_arrival *arrival = arrival_now(&network->coming);
    for (int call = 0; !arrival && call < GASNETL_STRAYS; call++) {
        gasnetl_network_flush(network);
        if (!receive_more(network))
            return NULL;
        arrival = arrival_now(&network->coming);
    }
    return arrival;
}

/* The next datagram of an arrival, and its length. */
static uint8_t *next_datagram(struct gasnetl_arrival *arrival, size_t *length) {
    uint8_t *bytes = arrival->bytes + arrival->first;
    const size_t left = arrival->end - arrival->first;
    *length = left < arrival->each ? left : arrival->each;
    arrival->first += *length;
    return bytes;
}

/* Opens the next datagram of an arrival. False where the key didn't seal it. */
static bool open_next(struct gasnetl_network *network, struct gasnetl_arrival *arrival) {
    size_t length;
    uint8_t *sealed = next_datagram(arrival, &length),
            *inside = gasnetl_open(&network->seals, arrival->from, sealed, &length);
    if (!inside) {
        network->unsealed++;
        network->is_unsealed[arrival->from] = true;
        return false;
    }
    network->received++;
    arrival->message = (size_t)(inside - arrival->bytes);
    arrival->last = arrival->message + length;
    return true;
}

/* The next message of a datagram that was opened, and its length; NULL where the datagram has no whole one. */
static uint8_t *next_message(struct gasnetl_arrival *arrival, size_t *length) {
    uint8_t *bytes = arrival->bytes + arrival->message;
    const size_t left = arrival->last - arrival->message;
    *length = left > GASNETL_LENGTH_BYTES ? gasnetl_word_read(bytes, GASNETL_LENGTH_BYTES) : 0;
    if (!*length || *length > left - GASNETL_LENGTH_BYTES) {
        arrival->message = arrival->last;
        return NULL;
    }
    arrival->message += GASNETL_LENGTH_BYTES + *length;
    return bytes + GASNETL_LENGTH_BYTES;
}

/* What is next of an arrival; NULL where it is of no use. */
static uint8_t *next_of(struct gasnetl_network *network, struct gasnetl_arrival *arrival, size_t *length) {
    if (!network->seals.is_set) {
        network->received++;
        return next_datagram(arrival, length);
    }
    if (arrival->message >= arrival->last && !open_next(network, arrival))
        return NULL;
    return next_message(arrival, length);
}

const uint8_t *gasnetl_network_receive(struct gasnetl_network *network, size_t *length, uint16_t *from) {
    for (int stray = 0; stray < GASNETL_STRAYS; stray++) {
        struct gasnetl_arrival *arrival = next_arrival(network);
        if (!arrival)
            return NULL;
        *from = arrival->from;
        const uint8_t *bytes = next_of(network, arrival, length);
        if (!bytes)
            continue;
        if (*length > GASNETL_DATAGRAM)
            *length = GASNETL_DATAGRAM;
        return bytes;
    }
    return NULL;
}

void gasnetl_network_forget(struct gasnetl_network *network) {
    network->going.count = 0;
    network->going.first = network->going.end = 0;
    network->filling.first = network->filling.end = 0;
    network->coming.count = network->coming.next = 0;
}

void gasnetl_network_close(struct gasnetl_network *network) {
    if (network->socket >= 0)
        close(network->socket);
    network->socket = -1;
}
