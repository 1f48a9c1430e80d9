/* How the layer refuses, and how it ends a job. */
#ifndef GASNETL_ERRORS_H
#define GASNETL_ERRORS_H

struct gasnetl_job;

/* The exit statuses that the layer gives itself (as sysexits.h numbers them). */
enum {
    GASNETL_PEER_GONE = 69, /* a peer didn't answer in time */
    GASNETL_MISUSE = 70,    /* the client broke a rule of the specification */
    GASNETL_BROKEN = 71,    /* the system refused something, or there was no memory */
    GASNETL_LEFT = 76       /* a node returned, or called exit(0), and the others went on without it */
};

enum { GASNETL_LINE = 8192 }; /* the bytes of a line at most: all nodes may be named in it */

/* Says one line on standard error, with this node's number, and ends the job with the status. */
_Noreturn void gasnetl_stop(int status, const char *format, ...) __attribute__((format(printf, 2, 3)));

/* The same where the system knows a descriptor of the layer's no more, by errno: the client closed it. */
_Noreturn void gasnetl_stop_lost(void);

/* Says one line on standard error, with this node's number. */
void gasnetl_warn(const char *format, ...) __attribute__((format(printf, 1, 2)));

/* Says one line on standard error, with this node's number, and answers the code: for calls that answer one. */
int gasnetl_refuse(int code, const char *format, ...) __attribute__((format(printf, 2, 3)));

#endif
