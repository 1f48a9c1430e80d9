/* Each node asks each node for its square, by an active message that is replied, and puts a line into the segment of
 * node 0, which prints them all. */
#define GASNET_SEQ 1
#include <gasnet.h>
#include <stdio.h>

enum { SQUARE = 128, ANSWER = 129, LINE = 64, PAGES = 4096 };

static int answers, sum;

static void square(gasnet_token_t token, gasnet_handlerarg_t number) {
    GASNET_SAFE(gasnet_AMReplyShort1(token, ANSWER, number * number));
}

static void answer(gasnet_token_t token, gasnet_handlerarg_t number) {
    (void)token;
    sum += number;
    answers++;
}

int main(int argc, char **argv) {
    gasnet_handlerentry_t table[] = { { SQUARE, square }, { ANSWER, answer } };
    gasnet_seginfo_t segments[GASNET_MAXNODES];
    GASNET_SAFE(gasnet_init(&argc, &argv));
    GASNET_SAFE(gasnet_attach(table, 2, PAGES, 0));
    GASNET_SAFE(gasnet_getSegmentInfo(segments, gasnet_nodes()));
    for (int node = 0; node < gasnet_nodes(); node++)
        GASNET_SAFE(gasnet_AMRequestShort1(node, SQUARE, node + gasnet_mynode()));
    GASNET_BLOCKUNTIL(answers == gasnet_nodes());
    char line[LINE];
    snprintf(line, LINE, "node %d of %d: the squares' sum is %d", gasnet_mynode(), gasnet_nodes(), sum);
    gasnet_put(0, (char *)segments[0].addr + LINE * gasnet_mynode(), line, LINE);
    gasnet_barrier_notify(0, GASNET_BARRIERFLAG_ANONYMOUS);
    GASNET_SAFE(gasnet_barrier_wait(0, GASNET_BARRIERFLAG_ANONYMOUS));
    for (int node = 0; gasnet_mynode() == 0 && node < gasnet_nodes(); node++)
        puts((char *)segments[0].addr + LINE * node);
    gasnet_exit(0);
}
