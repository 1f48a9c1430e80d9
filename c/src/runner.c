#include "runner.h"

#include <fcntl.h>
#include <stdio.h>
#include <stdlib.h>
#include <sys/stat.h>
#include <unistd.h>

/* The pipe's descriptor; -1 where there is none. */
static int find_pipe(void) {
    const char *text = getenv("GASNET_RUNNER");
    unsigned long long inode;
    struct stat is;
    int pipe;
    if (!text || sscanf(text, "%d:%llu", &pipe, &inode) != 2 || fstat(pipe, &is))
        return -1;
    return S_ISFIFO(is.st_mode) && is.st_ino == inode ? pipe : -1;
}

void gasnetl_runner_start(void) {
    int pipe = find_pipe();
    if (pipe >= 0)
        fcntl(pipe, F_SETFD, FD_CLOEXEC);
}

void gasnetl_runner_tell(uint8_t kind, unsigned node) {
    const struct gasnetl_report report = { kind, (uint8_t)node, (int32_t)getpid() };
    int pipe = find_pipe();
    if (pipe >= 0 && write(pipe, &report, sizeof report) != sizeof report)
        perror("gasnet: gasnetrun can't be told how this node ends");
}
