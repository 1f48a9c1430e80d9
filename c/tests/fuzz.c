/* Datagrams that no node would send now, from the addresses of the job's own nodes, beside a checked workload. What the
 * layer sends is caught on its way to the system. The first argument says what is done with it:
 *
 *   mutate SEED         each datagram is followed by some that differ in a way for which they have to be refused, or
 *                       that came before: of control datagrams, of messages, and, with a key, of what is sealed
 *   forge SEED          some datagrams go before each that differ in a way in which they may be believed, as whoever is
 *                       on the path, and has no key to guess, can send them: from the first greeting on. Nothing is
 *                       promised of what the job does then, but that it touches no memory beyond its own
 *   count SEED          none; each datagram that is sent has a number above all before it under its key
 *   record FILE CODE    node 1 writes what it sends to a file, and ends the job with this code
 *   replay FILE         node 1 sends that again as it begins, in a job with the same addresses and number
 */
#define GASNET_SEQ 1
#include <dlfcn.h>
#include <errno.h>
#include <netinet/in.h>
#include <netinet/udp.h>
#include <signal.h>
#include <stdarg.h>
#include <sys/socket.h>
#include <sys/syscall.h>
#include <sys/uio.h>
#include <unistd.h>

#include "check.h"

enum { RING = 512, MOST = 1 << 16, JUNK = 9000, EACH = 2, ALL = 6000, PAUSE = 16 };
enum { ASK = 128, ANSWER = 129, ROUNDS = 20, ASKED = 20, PIECE = 8192, LENGTH = 40000 };

/* Of a control datagram, and of a message: where fields stand (c/src/control.c, docs/FORMATS.md). */
enum {
    KIND = 4,
    FLAGS = 5,
    JOB = 8,
    ECHO = 24,
    WHEN = 32,
    FIRST = 40,
    SECOND = 48,
    BUFFER = 56,
    MTU = 64,
    CONTROL = 84
};
enum { HANDLER = 5, COUNT_AT = 6, RESERVED = 7, SENDER = 16, RECEIVER = 18, SLOT = 20, SIZE = 22, NUMBER = 24 };
enum { PLACE = 32, ARGS = 40, ALL_ARGS = 16, LONGEST = 8192 };

/* A datagram that was sent. */
struct caught {
    struct sockaddr_storage to;
    socklen_t to_length;
    size_t length;
    unsigned char bytes[MOST];
};

static struct caught ring[RING];
static unsigned caught, injected;
static const char *way = "", *path = "";
static FILE *file;
static bool is_attached, is_replayed;
static size_t seldom; /* how many datagrams of the layer come to each forged one */
static uint64_t state;

/* The next random number (xorshift64). */
static uint64_t random_number(void) {
    state ^= state << 13;
    state ^= state >> 7;
    state ^= state << 17;
    return state;
}

static size_t below(size_t bound) { return (size_t)(random_number() % bound); }

/* ---- What the layer sends. */

typedef long system_call(long number, ...);

static system_call *next_call(void) {
    static system_call *found;
    if (!found)
        *(void **)(void *)&found = dlsym(RTLD_NEXT, "syscall");
    return found;
}

static void inject(int socket, const struct caught *one) {
    next_call()(SYS_sendto, socket, one->bytes, one->length, MSG_DONTWAIT, one->to_length ? &one->to : NULL,
                one->to_length);
    injected++;
}

/* Where it goes: to the address of a call, or where that has none to the peer to which the socket is connected. */
static void note_address(struct caught *one, const void *to, socklen_t length) {
    one->to_length = to ? length : 0;
    if (to)
        memcpy(&one->to, to, length);
}

/* ---- What is wrong with a datagram. */

static void change(unsigned char *byte) { *byte ^= (unsigned char)(1 + below(255)); }

static void scatter(unsigned char *bytes, size_t length) {
    for (size_t i = 0; i < length; i++)
        bytes[i] = (unsigned char)random_number();
}

static void cut(struct caught *one) { one->length = below(one->length); }

static void prolong(struct caught *one) {
    size_t more = 1 + below(100);
    if (one->length + more > MOST)
        more = MOST - one->length;
    scatter(one->bytes + one->length, more);
    one->length += more;
}

/* One of the fields by which a control datagram is known to be of this run is wrong, and others may be anything; or,
 * once all nodes are attached, those are right. */
static void mutate_control(struct caught *one) {
    bool is_hello = one->bytes[KIND] == 1;
    switch (below(4)) {
    case 0:
        scatter(one->bytes + WHEN, CONTROL - WHEN);
        one->bytes[KIND] = (unsigned char)(1 + below(3));
        one->bytes[KIND + 1] = (unsigned char)random_number();
        change(one->bytes + JOB + below(8));
        break;
    case 1:
        scatter(one->bytes + WHEN, CONTROL - WHEN);
        one->bytes[KIND] = (unsigned char)(1 + below(3));
        one->bytes[KIND + 1] = (unsigned char)random_number();
        change(one->bytes + ECHO + below(8));
        break;
    case 2:
        if (is_hello && is_attached)
            scatter(one->bytes + WHEN, CONTROL - WHEN);
        break;
    default:
        change(one->bytes + 3);
    }
}

static void mutate_message(struct caught *one) {
    unsigned char *bytes = one->bytes;
    switch (below(8)) {
    case 0:
        change(bytes + below(3));
        break;
    case 1:
        bytes[KIND] = (unsigned char)(7 + below(249));
        break;
    case 2:
        change(bytes + RESERVED);
        break;
    case 3:
        change(bytes + JOB + below(8));
        break;
    case 4:
        change(bytes + SENDER + below(2));
        break;
    case 5:
        change(bytes + RECEIVER + below(2));
        break;
    case 6:
        change(bytes + SIZE + below(2));
        break;
    default:
        memset(bytes + NUMBER, 0, 8);
    }
}

static void make_junk(struct caught *one) {
    static const char magics[][5] = { "GNL3", "GNL2", "GAM1", "GAM2" };
    one->length = 1 + below(JUNK - 1);
    scatter(one->bytes, one->length);
    if (one->length > 4 && below(2))
        memcpy(one->bytes, magics[below(4)], 4);
}

static void mutate(struct caught *one) {
    const bool is_control = one->length >= CONTROL && !memcmp(one->bytes, "GNL", 3);
    const bool is_sealed = getenv("GASNET_KEY_FILE");
    switch (below(6)) {
    case 0: /* as it was */
        break;
    case 1:
        cut(one);
        break;
    case 2:
        prolong(one);
        break;
    case 3:
        make_junk(one);
        break;
    default:
        if (is_sealed)
            change(one->bytes + below(one->length));
        else if (is_control)
            mutate_control(one);
        else
            mutate_message(one);
    }
}

/* ---- What may be believed. */

static void put_number(unsigned char *bytes, unsigned count, uint64_t number) {
    for (unsigned i = 0; i < count; i++)
        bytes[i] = (unsigned char)(number >> 8 * (count - 1 - i));
}

/* A number by which sums and differences may go wrong, or any. */
static uint64_t odd_number(void) {
    static const uint64_t numbers[] = { 0,     1,        7,        8,          4095,       4096,       8192,
                                        65536, 1u << 20, 1u << 31, UINT32_MAX, 1ull << 40, 1ull << 63, UINT64_MAX };
    const uint64_t number = numbers[below(sizeof numbers / sizeof *numbers)];
    switch (below(4)) {
    case 0:
        return random_number();
    case 1:
        return number - below(1 << 22) / 4096 * 4096;
    default:
        return number + below(3) - 1;
    }
}

/* Greetings mostly: an end ends the job. The settings are those of all nodes, or it ends too. */
static void forge_control(struct caught *one) {
    if (!below(3000))
        one->bytes[KIND] = (unsigned char)below(4);
    else if (one->bytes[KIND] != 1)
        return;
    one->bytes[FLAGS] = (unsigned char)below(16);
    for (unsigned at = WHEN; at <= BUFFER; at += 8)
        if (below(2))
            put_number(one->bytes + at, 8, odd_number());
    put_number(one->bytes + MTU, 4, odd_number());
}

/* A message that is spelled as one has to be, for any handler, slot and place. */
static void forge_message(struct caught *one) {
    static const unsigned char handlers[] = { 64, 65, 66, 67, 68, 128, 129, 130, 131, 252, 253, 254 };
    unsigned char *bytes = one->bytes;
    const unsigned kind = (unsigned)below(7), args = kind == 6 ? 0 : (unsigned)below(ALL_ARGS + 1);
    const size_t length = kind % 3 && kind < 6 ? below(2) ? below(64) : below(LONGEST + 1) : 0;
    uint64_t number = 0;
    for (int i = 0; i < 8; i++)
        number = number << 8 | bytes[NUMBER + i];
    bytes[KIND] = (unsigned char)kind;
    bytes[HANDLER] = kind == 6 ? 0 : handlers[below(sizeof handlers)];
    bytes[COUNT_AT] = (unsigned char)args;
    if (below(2))
        put_number(bytes + SLOT, 2, below(32));
    put_number(bytes + SIZE, 2, length);
    put_number(bytes + NUMBER, 8, number + below(3));
    put_number(bytes + PLACE, 8, kind == 2 || kind == 5 ? below(2) ? below(1 << 22) : odd_number() : 0);
    for (unsigned i = 0; i < args; i++)
        put_number(bytes + ARGS + 4 * i, 4, below(2) ? below(64) : odd_number());
    scatter(bytes + ARGS + 4 * args, length);
    one->length = ARGS + 4 * args + length;
}

static void forge(struct caught *one) {
    if (one->length >= CONTROL && !memcmp(one->bytes, "GNL", 3))
        forge_control(one);
    else if (one->length >= ARGS)
        forge_message(one);
}

/* ---- What is done before, and as, a datagram is sent. */

static void is_to_be_sent(int socket, const void *bytes, size_t length, const void *to, socklen_t to_length) {
    static struct caught one;
    if (strcmp(way, "forge") || below(seldom))
        return;
    one.length = length < MOST ? length : MOST;
    memcpy(one.bytes, bytes, one.length);
    note_address(&one, to, to_length);
    forge(&one);
    inject(socket, &one);
}

/* In a file a datagram has the bytes that were sent alone. */
static bool write_caught(const struct caught *one, FILE *to) {
    return fwrite(one, offsetof(struct caught, bytes), 1, to) == 1 && fwrite(one->bytes, one->length, 1, to) == 1;
}

static bool read_caught(struct caught *one, FILE *from) {
    return fread(one, offsetof(struct caught, bytes), 1, from) == 1 && fread(one->bytes, one->length, 1, from) == 1;
}

static void replay(int socket, const struct caught *like) {
    struct caught *one = malloc(sizeof *one);
    unsigned count = 0;
    is_replayed = true;
    FILE *from = fopen(path, "r");
    while (from && one && read_caught(one, from)) {
        one->to = like->to;
        one->to_length = like->to_length;
        inject(socket, one);
        if (++count % PAUSE == 0)
            usleep(200);
    }
    if (from)
        fclose(from);
    free(one);
}

static bool is_node_1(void) {
    const char *rank = getenv("GASNET_RANK");
    return rank && atoi(rank) == 1;
}

/* ---- Numbers of what is sealed (c/src/seal.h). */

/* The ports of the peers, and the numbers below which no further one may be: of messages, and of greetings. */
static struct {
    in_port_t port;
    uint64_t next[2];
} counted[GASNET_MAXNODES];

static void check_number(const struct caught *one) {
    const in_port_t port = one->to_length ? ((const struct sockaddr_in *)(const void *)&one->to)->sin_port : 1;
    const bool is_greeting = one->bytes[0] & 2;
    uint64_t number = 0;
    int peer = 0;
    while (counted[peer].port && counted[peer].port != port)
        peer++;
    counted[peer].port = port;
    for (int i = 1; i < 8; i++)
        number = number << 8 | one->bytes[i];
    CHECK(one->bytes[0] >> 2 == 48 && number >= counted[peer].next[is_greeting]);
    counted[peer].next[is_greeting] = number + 1;
}

static void was_sent(int socket, const void *bytes, size_t length, const void *to, socklen_t to_length) {
    struct caught *one = &ring[caught++ % RING];
    one->length = length < MOST ? length : MOST;
    memcpy(one->bytes, bytes, one->length);
    note_address(one, to, to_length);
    if (file)
        CHECK(write_caught(one, file));
    if (!strcmp(way, "count"))
        check_number(one);
    if (!strcmp(way, "replay") && is_node_1() && !is_replayed)
        replay(socket, one);
    if (strcmp(way, "mutate"))
        return;
    for (int i = 0; i < EACH && injected < ALL; i++) {
        static struct caught other;
        other = ring[below(caught < RING ? caught : RING)];
        mutate(&other);
        inject(socket, &other);
    }
}

static size_t group_size(const struct msghdr *message) {
    struct msghdr *all = (struct msghdr *)(uintptr_t)message;
    uint16_t size = 0;
    for (struct cmsghdr *part = CMSG_FIRSTHDR(all); part; part = CMSG_NXTHDR(all, part))
        if (part->cmsg_level == IPPROTO_UDP && part->cmsg_type == UDP_SEGMENT)
            memcpy(&size, CMSG_DATA(part), sizeof size);
    return size ? size : message->msg_iov->iov_len;
}

typedef void for_one(int socket, const void *bytes, size_t length, const void *to, socklen_t to_length);

static void for_group(for_one *work, int socket, const struct msghdr *message) {
    const unsigned char *bytes = message->msg_iov->iov_base;
    size_t length = message->msg_iov->iov_len, each = group_size(message);
    for (size_t at = 0; at < length; at += each)
        work(socket, bytes + at, length - at < each ? length - at : each, message->msg_name, message->msg_namelen);
}

/* For each datagram of a call that sends. */
static void for_each(for_one *work, long number, const long *values) {
    if (number == SYS_sendto)
        work((int)values[0], (const void *)values[1], (size_t)values[2], (const void *)values[4], (socklen_t)values[5]);
    if (number == SYS_sendmsg)
        for_group(work, (int)values[0], (const struct msghdr *)values[1]);
}

/* The C library's, with a look at what is sent. It reads six values where the call has fewer, as that does. */
__attribute__((no_sanitize("address"))) long syscall(long number, ...) {
    long values[6];
    va_list list;
    va_start(list, number);
    for (int i = 0; i < 6; i++)
        values[i] = va_arg(list, long);
    va_end(list);
    for_each(is_to_be_sent, number, values);
    const long result = next_call()(number, values[0], values[1], values[2], values[3], values[4], values[5]);
    const int why = errno;
    if (result >= 0)
        for_each(was_sent, number, values);
    errno = why;
    return result;
}

/* ---- The workload. */

static int asked, ran, answered;

static void ask(gasnet_token_t token, void *bytes, size_t length, gasnet_handlerarg_t number) {
    gasnet_node_t from;
    GASNET_SAFE(gasnet_AMGetMsgSource(token, &from));
    CHECK(from == before() && length == (size_t)number * 37 % PIECE && is_filled(bytes, length, from, number));
    ran++;
    GASNET_SAFE(gasnet_AMReplyMedium1(token, ANSWER, bytes, length < 64 ? length : 64, number));
}

static void answer(gasnet_token_t token, void *bytes, size_t length, gasnet_handlerarg_t number) {
    (void)token;
    CHECK(is_filled(bytes, length, me, number));
    answered++;
}

static void send_messages(void) {
    static unsigned char bytes[PIECE];
    for (int i = 0; i < ASKED; i++, asked++) {
        const size_t length = (size_t)asked * 37 % PIECE;
        fill(bytes, length, me, asked);
        GASNET_SAFE(gasnet_AMRequestMedium1((gasnet_node_t)next(), ASK, bytes, length, asked));
    }
}

static void move(int round) {
    static unsigned char to[LENGTH], from[LENGTH];
    fill(to, LENGTH, me, round);
    gasnet_put(next(), at(next(), 4096), to, LENGTH);
    gasnet_get(from, next(), at(next(), 4096), LENGTH);
    CHECK(is_filled(from, LENGTH, me, round));
}

/* The same of pieces, which go packed. */
static void move_pieces(int round) {
    enum { WIDTH = 8, COLUMNS = 3000 };
    static unsigned char to[WIDTH * COLUMNS], from[WIDTH * COLUMNS];
    const size_t there[] = { 3 * WIDTH }, here[] = { WIDTH }, counts[] = { WIDTH, COLUMNS };
    fill(to, sizeof to, me, round + 1);
    gasnet_puts_bulk((gasnet_node_t)next(), at(next(), 1 << 16), there, to, here, counts, 1);
    gasnet_gets_bulk(from, here, (gasnet_node_t)next(), at(next(), 1 << 16), there, counts, 1);
    CHECK(is_filled(from, sizeof from, me, round + 1));
}

static void reduce(int round) {
    uint64_t own = (uint64_t)(me + round), sum;
    gasnet_coll_reduce_all(NULL, &sum, &own, GEX_DT_U64, 1, GEX_OP_ADD, 0);
    CHECK(sum == (uint64_t)(nodes * round + nodes * (nodes - 1) / 2));
}

static uint64_t add(gex_AD_t words, gex_OP_t operation) {
    uint64_t was;
    gex_Event_Wait(gex_AD_OpNB_U64(words, &was, 0, segments[0].addr, operation, 1, 0, 0));
    return was;
}

static void work(void) {
    gasnet_seginfo_t now[GASNET_MAXNODES];
    gex_AD_t words;
    gex_AD_Create(&words, NULL, GEX_DT_U64, GEX_OP_FADD | GEX_OP_GET, 0);
    barrier();
    for (int round = 0; round < ROUNDS; round++) {
        send_messages();
        move(round);
        move_pieces(round);
        add(words, GEX_OP_FADD);
        reduce(round);
        barrier();
        GASNET_SAFE(gasnet_getSegmentInfo(now, nodes));
        CHECK(!memcmp(now, segments, (size_t)nodes * sizeof *now));
    }
    GASNET_BLOCKUNTIL(answered == asked && ran == asked);
    barrier();
    CHECK(ran == asked && add(words, GEX_OP_GET) == (uint64_t)(nodes * ROUNDS));
    gex_AD_Destroy(words);
    barrier();
}

/* ---- The workload beside forged datagrams: none of its results is right. */

/* A client's handler takes what comes, whatever it is. */
static void take_any(gasnet_token_t token) { (void)token; }

static volatile sig_atomic_t rounds;

static void is_over(int signal) {
    static const char told[] = "still there, having worked\n";
    (void)signal;
    (void)!write(1, told, rounds ? sizeof told - 1 : 12);
    _exit(0);
}

static _Noreturn void work_in_vain(void) {
    static unsigned char bytes[LENGTH];
    gex_AD_t words;
    gex_AD_Create(&words, NULL, GEX_DT_U64, GEX_OP_FADD, 0);
    for (;; rounds++) {
        uint64_t own = 1, sum;
        for (int i = 0; i < ASKED; i++)
            GASNET_SAFE(gasnet_AMRequestLong1((gasnet_node_t)next(), ASK, bytes, (size_t)i * 40, at(next(), 0), i));
        gasnet_put(next(), at(next(), 4096), bytes, LENGTH);
        gasnet_get(bytes, next(), at(next(), 4096), LENGTH);
        add(words, GEX_OP_FADD);
        gasnet_coll_reduce_all(NULL, &sum, &own, GEX_DT_U64, 1, GEX_OP_ADD, 0);
        gasnet_barrier_notify(0, GASNET_BARRIERFLAG_ANONYMOUS);
        gasnet_barrier_wait(0, GASNET_BARRIERFLAG_ANONYMOUS);
    }
}

static _Noreturn void be_forged(int *argc, char ***argv) {
    enum { LAST = 2 };
    gasnet_handlerentry_t table[] = {
        { ASK, take_any }, { ANSWER, take_any }, { ANSWER + 1, take_any }, { ANSWER + 2, take_any }
    };
    signal(SIGALRM, is_over);
    alarm(LAST);
    start(argc, argv, table, COUNT(table), 1 << 20);
    work_in_vain();
}

int main(int argc, char **argv) {
    gasnet_handlerentry_t table[] = { { ASK, ask }, { ANSWER, answer } };
    way = argc > 1 ? argv[1] : "";
    path = argc > 2 ? argv[2] : "";
    state = 88172645463325252u + strtoull(path, NULL, 10) * 1000003;
    if (!strcmp(way, "record") && is_node_1() && !(file = fopen(path, "w")))
        return 1;
    if (is_node_1())
        state += 1u << 31;
    seldom = 2 + strtoull(path, NULL, 10) % 5 * 20;
    if (!strcmp(way, "forge"))
        be_forged(&argc, &argv);
    start(&argc, &argv, table, 2, !strcmp(way, "replay") ? 1 << 21 : 1 << 20);
    state += (uint64_t)me << 32;
    barrier();
    is_attached = true;
    work();
    if (!strcmp(way, "mutate"))
        CHECK(injected == ALL || caught * EACH > injected - EACH);
    if (!strcmp(way, "record") && me == 1)
        gasnet_exit(argc > 3 ? atoi(argv[3]) : 0);
    if (!strcmp(way, "record"))
        for (;;)
            GASNET_BLOCKUNTIL(false);
    gasnet_exit(0);
}
