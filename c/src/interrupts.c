#include "interrupts.h"

#include <pthread.h>
#include <signal.h>
#include <stdint.h>
#include <string.h>
#include <unistd.h>
#include <unwind.h>

#include "progress.h"

enum { SLACK = 100000 }; /* microseconds that an alarm may come early */

/* Ends at a frame that a signal interrupted: its address is that of the next instruction, and not behind a call. */
static _Unwind_Reason_Code look_at(struct _Unwind_Context *frame, void *found) {
    int is_interrupted = 0;
    _Unwind_GetIPInfo(frame, &is_interrupted);
    *(bool *)found = is_interrupted;
    return is_interrupted ? _URC_END_OF_STACK : _URC_NO_REASON;
}

bool gasnetl_is_in_signal(void) {
    bool found = false;
    _Unwind_Backtrace(look_at, &found);
    return found;
}

static volatile sig_atomic_t late_status;
static _Atomic uint64_t late_time;

/* The alarm may be one that the client asked for. */
static void end_where_late(int signal) {
    (void)signal;
    if (gasnetl_clock() >= late_time)
        _exit(late_status);
}

void gasnetl_end_late(unsigned seconds, int status) {
    struct sigaction action;
    sigset_t alarms;
    memset(&action, 0, sizeof action);
    action.sa_handler = end_where_late;
    late_status = status;
    late_time = gasnetl_clock() + seconds * UINT64_C(1000000) - SLACK;
    sigemptyset(&alarms);
    sigaddset(&alarms, SIGALRM);
    sigaction(SIGALRM, &action, NULL);
    pthread_sigmask(SIG_UNBLOCK, &alarms, NULL);
    alarm(seconds);
}
