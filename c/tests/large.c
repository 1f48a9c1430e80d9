/* A segment of 100 GiB costs what is touched: its last bytes are put and read, and the process stays small. */
#define GASNET_SEQ 1
#include "check.h"

enum { SMALL = 64 << 10 }; /* KiB */

/* How many KiB of memory this process has. */
static long resident(void) {
    char line[200];
    long size = -1;
    FILE *status = fopen("/proc/self/status", "r");
    CHECK(status);
    while (size < 0 && fgets(line, sizeof line, status))
        sscanf(line, "VmRSS: %ld", &size);
    fclose(status);
    return size;
}

int main(int argc, char **argv) {
    const uintptr_t length = (uintptr_t)100 << 30;
    unsigned char bytes[100], back[100];
    start(&argc, &argv, NULL, 0, length);
    fill(bytes, sizeof bytes, me, 1);
    gasnet_put(next(), at(next(), length - sizeof bytes), bytes, sizeof bytes);
    gasnet_get(back, next(), at(next(), length - sizeof bytes), sizeof back);
    CHECK(!memcmp(bytes, back, sizeof bytes));
    barrier();
    CHECK(is_filled(at(me, length - sizeof bytes), sizeof bytes, before(), 1));
    CHECK(is_all(at(me, length / 2), 4096, 0));
    CHECK(resident() > 0 && resident() < SMALL);
    barrier();
    gasnet_exit(0);
}
