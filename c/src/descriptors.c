#include "descriptors.h"

#include <errno.h>
#include <fcntl.h>
#include <sys/eventfd.h>
#include <sys/syscall.h>
#include <time.h>
#include <unistd.h>

enum { STREAMS = 3 };

int gasnetl_above_streams(int descriptor) {
    if (descriptor < 0 || descriptor >= STREAMS)
        return descriptor;
    int above = fcntl(descriptor, F_DUPFD_CLOEXEC, STREAMS), why = errno;
    close(descriptor);
    errno = why;
    return above;
}

int gasnetl_event_new(void) { return gasnetl_above_streams(eventfd(0, EFD_CLOEXEC | EFD_NONBLOCK)); }

bool gasnetl_event_raise(int event) {
    const uint64_t one = 1;
    return syscall(SYS_write, event, &one, sizeof one) >= 0 || errno == EAGAIN;
}

bool gasnetl_event_lower(int event) {
    uint64_t count;
    return syscall(SYS_read, event, &count, sizeof count) >= 0 || errno == EAGAIN;
}

int gasnetl_sleep_on(struct pollfd *ready, unsigned count, uint64_t microseconds) {
    struct timespec time = { (time_t)(microseconds / 1000000), (long)(microseconds % 1000000 * 1000) };
    return (int)syscall(SYS_ppoll, ready, (unsigned long)count, &time, NULL, 0UL);
}
