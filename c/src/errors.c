#include "errors.h"

#include <errno.h>
#include <stdarg.h>
#include <stdio.h>
#include <string.h>

#include "exit.h"
#include "job.h"

static void say(const char *format, va_list values) {
    char line[GASNETL_LINE];
    vsnprintf(line, sizeof line, format, values);
    if (gasnetl_job.initialised)
        fprintf(stderr, "gasnet: node %u of %u: %s\n", gasnetl_job.me, gasnetl_job.nodes, line);
    else
        fprintf(stderr, "gasnet: %s\n", line);
}

void gasnetl_stop(int status, const char *format, ...) {
    va_list values;
    va_start(values, format);
    say(format, values);
    va_end(values);
    gasnetl_end_all(&gasnetl_job, status);
}

void gasnetl_stop_lost(void) {
    gasnetl_stop(GASNETL_MISUSE,
                 "a descriptor of this library is gone (%s): the program closed it, so have it close its own alone",
                 strerror(errno));
}

void gasnetl_warn(const char *format, ...) {
    va_list values;
    va_start(values, format);
    say(format, values);
    va_end(values);
}

int gasnetl_refuse(int code, const char *format, ...) {
    va_list values;
    va_start(values, format);
    say(format, values);
    va_end(values);
    return code;
}

void gasnetl_unsafe(int code, const char *call, const char *file, int line) {
    const int status = code == GASNET_ERR_RESOURCE ? GASNETL_BROKEN : GASNETL_MISUSE;
    gasnetl_stop(status, "%s:%d: %s is answered %s (%s)", file, line, call, gasnet_ErrorName(code),
                 gasnet_ErrorDesc(code));
}

static const struct {
    int code;
    const char *name, *description;
} errors[] = {
    { GASNET_OK, "GASNET_OK", "no error" },
    { GASNET_ERR_NOT_INIT, "GASNET_ERR_NOT_INIT", "GASNet isn't initialised, or not attached, or is so already" },
    { GASNET_ERR_RESOURCE, "GASNET_ERR_RESOURCE", "a resource is missing" },
    { GASNET_ERR_BAD_ARG, "GASNET_ERR_BAD_ARG", "an argument is bad" },
    { GASNET_ERR_NOT_READY, "GASNET_ERR_NOT_READY", "it isn't complete yet" },
    { GASNET_ERR_BARRIER_MISMATCH, "GASNET_ERR_BARRIER_MISMATCH", "the barrier's identifiers or flags don't match" },
};
enum { ERRORS = sizeof errors / sizeof *errors };

const char *gasnet_ErrorName(int code) {
    for (int i = 0; i < ERRORS; i++)
        if (errors[i].code == code)
            return errors[i].name;
    return "no such error";
}

const char *gasnet_ErrorDesc(int code) {
    for (int i = 0; i < ERRORS; i++)
        if (errors[i].code == code)
            return errors[i].description;
    return "no such error";
}
