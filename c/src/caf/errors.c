#include "errors.h"

#include <stdarg.h>
#include <stdio.h>
#include <stdlib.h>
#include <string.h>

#include "state.h"

enum { LINE = 400 };

void caf_report_success(const struct caf_report *report) {
    if (report->stat)
        *report->stat = 0;
}

static _Noreturn void end_all(const char *text) {
    fflush(stdout);
    if (caf_state.is_started)
        fprintf(stderr, "Fortran runtime error on image %d: %s\n", caf_state.me + 1, text);
    else
        fprintf(stderr, "Fortran runtime error: %s\n", text);
    exit(1);
}

void caf_report_error(const struct caf_report *report, int code, const char *format, ...) {
    char text[LINE];
    va_list values;
    va_start(values, format);
    vsnprintf(text, sizeof text, format, values);
    va_end(values);
    if (!report->stat)
        end_all(text);
    *report->stat = code;
    if (!report->errmsg)
        return;
    size_t length = strlen(text) < report->length ? strlen(text) : report->length;
    memset(report->errmsg, ' ', report->length);
    memcpy(report->errmsg, text, length);
}

void caf_report_code(const struct caf_report *report, int code, const char *call) {
    if (!code)
        caf_report_success(report);
    else
        caf_report_error(report, code, "%s: an image has %s", call,
                         code == CAF_STAT_STOPPED_IMAGE ? "stopped" : "failed");
}

void caf_die(const char *format, ...) {
    char text[LINE];
    va_list values;
    va_start(values, format);
    vsnprintf(text, sizeof text, format, values);
    va_end(values);
    end_all(text);
}

void *caf_memory(size_t bytes) {
    void *at = malloc(bytes ? bytes : 1);
    if (!at)
        caf_die("there is no memory of %zu bytes", bytes);
    return at;
}

void *caf_zeros(size_t bytes) {
    void *at = calloc(1, bytes ? bytes : 1);
    if (!at)
        caf_die("there is no memory of %zu bytes", bytes);
    return at;
}

void *caf_memory_again(void *old, size_t bytes) {
    void *at = realloc(old, bytes ? bytes : 1);
    if (!at)
        caf_die("there is no memory of %zu bytes", bytes);
    return at;
}
