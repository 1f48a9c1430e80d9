/* Node 0 deals out lines of a text by Medium messages. The handler at each node counts the words of the line that it is
 * given, and replies how many there are. */
#define GASNET_SEQ 1
#include <ctype.h>
#include <gasnet.h>
#include <stdio.h>
#include <string.h>

enum { LINE = 128, COUNTED = 129 };

static const char *const lines[] = { "a message is one datagram", "it may be lost or come twice",
                                     "its handler runs once all the same", "and a reply gives the credit back" };
enum { LINES = sizeof lines / sizeof *lines };

static int answers, words;

/* The bytes are the message's: they are gone as the handler returns. */
static void line(gasnet_token_t token, void *bytes, size_t length) {
    const char *text = bytes;
    int count = 0;
    for (size_t i = 0; i < length; i++)
        count += !isspace((unsigned char)text[i]) && (i == 0 || isspace((unsigned char)text[i - 1]));
    GASNET_SAFE(gasnet_AMReplyShort1(token, COUNTED, count));
}

static void counted(gasnet_token_t token, gasnet_handlerarg_t count) {
    (void)token;
    words += count;
    answers++;
}

int main(int argc, char **argv) {
    gasnet_handlerentry_t table[] = { { LINE, line }, { COUNTED, counted } };
    GASNET_SAFE(gasnet_init(&argc, &argv));
    GASNET_SAFE(gasnet_attach(table, 2, GASNET_PAGESIZE, 0));
    for (int i = 0; gasnet_mynode() == 0 && i < LINES; i++)
        GASNET_SAFE(gasnet_AMRequestMedium0((gasnet_node_t)(i % gasnet_nodes()), LINE, lines[i], strlen(lines[i])));
    if (gasnet_mynode() == 0) {
        GASNET_BLOCKUNTIL(answers == LINES);
        printf("%d words in %d lines, by %d nodes\n", words, LINES, gasnet_nodes());
    }
    gasnet_barrier_notify(0, GASNET_BARRIERFLAG_ANONYMOUS);
    GASNET_SAFE(gasnet_barrier_wait(0, GASNET_BARRIERFLAG_ANONYMOUS)); /* a wait serves: the others count in it */
    gasnet_exit(0);
}
