/* Two nodes over a network that may lose packets: round trips of a Short, blocking puts of 1 MiB, 8 of them under way,
 * puts of 64 bytes, and streams of Mediums that fit a packet of 1,500 bytes and of longer ones, which IP cuts there;
 * each for some seconds: loss [SECONDS]. */
#include "nodes.h"

enum { ASK = 200, BACK, TAKE, UNDER_WAY = 8, MOST = 1 << 20, MEDIUMS = 256, FITS = 1400, CUT = 8192 };

static volatile unsigned backs;
static char near[MIB];

static void ask(gasnet_token_t token) { GASNET_SAFE(gasnet_AMReplyShort0(token, BACK)); }

static void back(gasnet_token_t token) {
    (void)token;
    backs++;
}

static void take(gasnet_token_t token, void *bytes, size_t nbytes) {
    (void)bytes;
    (void)nbytes;
    GASNET_SAFE(gasnet_AMReplyShort0(token, BACK));
}

static void trips(double time) {
    static double times[MOST];
    int count = 0;
    double begun = seconds(), ended = begun;
    while (ended - begun < time && count < MOST) {
        double asked = ended;
        backs = 0;
        GASNET_SAFE(gasnet_AMRequestShort0(1, ASK));
        GASNET_BLOCKUNTIL(backs);
        ended = seconds();
        times[count++] = ended - asked;
    }
    qsort(times, (size_t)count, sizeof *times, by_value);
    printf("round trip %.2f us\nmedian round trip %.2f us\n", (ended - begun) / count * 1e6, times[count / 2] * 1e6);
}

static void put_large(void) { gasnet_put_bulk(1, far(1, 0), near, MIB); }

static void put_eight(void) {
    for (size_t i = 0; i < UNDER_WAY; i++)
        gasnet_put_nbi_bulk(1, far(1, i * MIB), near, MIB);
    gasnet_wait_syncnbi_all();
}

static void put_small(void) { gasnet_put(1, far(1, 0), near, 64); }

static void send_mediums(size_t nbytes) {
    backs = 0;
    for (int i = 0; i < MEDIUMS; i++)
        GASNET_SAFE(gasnet_AMRequestMedium0(1, TAKE, near, nbytes));
    GASNET_BLOCKUNTIL(backs == MEDIUMS);
}

static void send_short_mediums(void) { send_mediums(FITS); }

static void send_long_mediums(void) { send_mediums(CUT); }

/* The seconds that one of them takes, on the average. */
static double mean(void (*put)(void), double time) {
    int count = 0;
    double begun = seconds();
    for (; !count || seconds() - begun < time; count++)
        put();
    return (seconds() - begun) / count;
}

int main(int argc, char **argv) {
    gasnet_handlerentry_t table[] = { { ASK, ask }, { BACK, back }, { TAKE, take } };
    double time = argument(argc, argv, 1, 1);
    start(table, 3, UNDER_WAY * MIB);
    memset(near, 1, sizeof near);
    barrier();
    if (!me) {
        setvbuf(stdout, NULL, _IOLBF, 0);
        trips(time);
        printf("put 1 MiB %.2f MB/s\n", MIB / mean(put_large, time) / 1e6);
        printf("8 puts of 1 MiB %.2f MB/s\n", UNDER_WAY * MIB / mean(put_eight, time) / 1e6);
        printf("put 64 B %.2f us\n", mean(put_small, time) * 1e6);
        printf("Mediums of 1400 %.2f MB/s\n", MEDIUMS * FITS / mean(send_short_mediums, time) / 1e6);
        printf("Mediums of 8192 %.2f MB/s\n", MEDIUMS * CUT / mean(send_long_mediums, time) / 1e6);
    }
    barrier();
    gasnet_exit(0);
}
