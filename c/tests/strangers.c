/* A stranger sends each node bytes of all kinds, forged messages of the job too, while the nodes go on. Nothing comes
 * of them: they have no peer's address. */
#define GASNET_SEQ 1
#include <arpa/inet.h>
#include <unistd.h>

#include "check.h"

enum { ADD = 128, ADDED = 129, ROUNDS = 200, MOST = 9000 };

static int sum, added;

static void add(gasnet_token_t token, gasnet_handlerarg_t number) {
    sum += number;
    GASNET_SAFE(gasnet_AMReplyShort0(token, ADDED));
}

static void is_added(gasnet_token_t token) {
    (void)token;
    added++;
}

static void put_number(unsigned char *bytes, int count, uint64_t number) {
    for (int i = 0; i < count; i++)
        bytes[i] = (unsigned char)(number >> 8 * (count - 1 - i));
}

/* A Short request of node `from`, for the handler that adds, as it should be spelled. */
static size_t forge(unsigned char *bytes, int from, int to, uint64_t job) {
    memset(bytes, 0, 44);
    memcpy(bytes, "GAM1", 4);
    bytes[5] = ADD;
    bytes[6] = 1;
    put_number(bytes + 8, 8, job);
    put_number(bytes + 16, 2, (uint64_t)from);
    put_number(bytes + 18, 2, (uint64_t)to);
    put_number(bytes + 24, 8, 1000000);
    put_number(bytes + 40, 4, 4242);
    return 44;
}

/* That the job is at its end, as the layer says it. */
static size_t forge_end(unsigned char *bytes, int from, uint64_t job) {
    enum { LENGTH = 84 };
    memset(bytes, 0, LENGTH);
    memcpy(bytes, "GNL3\2\1", 6);
    put_number(bytes + 6, 2, (uint64_t)from);
    put_number(bytes + 8, 8, job);
    return LENGTH;
}

static size_t junk(unsigned char *bytes, int round, int to, uint64_t job) {
    int from = (to + 1) % nodes;
    if (round % 4 == 0)
        return forge(bytes, from, to, job);
    if (round % 4 == 1)
        return forge_end(bytes, from, job);
    size_t length = (size_t)(rand() % MOST);
    for (size_t i = 0; i < length; i++)
        bytes[i] = (unsigned char)rand();
    if (round % 4 == 2 && length > 5)
        memcpy(bytes, "GAM1", 4);
    return length;
}

static void send_junk(int socket, int round) {
    unsigned char bytes[MOST];
    const char *at = getenv("GASNET_ADDRESSES");
    uint64_t job = strtoull(getenv("GASNET_JOB"), NULL, 10);
    for (int node = 0; node < nodes; node++) {
        struct sockaddr_in address = { .sin_family = AF_INET, .sin_addr.s_addr = htonl(INADDR_LOOPBACK) };
        address.sin_port = htons((uint16_t)atoi(strchr(at, ':') + 1));
        sendto(socket, bytes, junk(bytes, round, node, job), 0, (struct sockaddr *)&address, sizeof address);
        at = strchr(at, ',') ? strchr(at, ',') + 1 : at;
    }
}

int main(int argc, char **argv) {
    gasnet_handlerentry_t table[] = { { ADD, add }, { ADDED, is_added } };
    int stranger = socket(AF_INET, SOCK_DGRAM, 0);
    start(&argc, &argv, table, 2, GASNET_PAGESIZE);
    for (int round = 0; round < ROUNDS; round++) {
        if (me == 0)
            send_junk(stranger, round);
        GASNET_SAFE(gasnet_AMRequestShort1((gasnet_node_t)next(), ADD, round));
        gasnet_put_val(next(), at(next(), 8), (gasnet_register_value_t)round, 8);
    }
    GASNET_BLOCKUNTIL(added == ROUNDS);
    barrier();
    CHECK(sum == ROUNDS * (ROUNDS - 1) / 2);
    close(stranger);
    gasnet_exit(0);
}
