/* How an error comes to the program, and how it ends all images. */
#ifndef CAF_ERRORS_H
#define CAF_ERRORS_H

#include <stddef.h>

/* Where a call's error goes: its stat= and errmsg=, each of which may be null. */
struct caf_report {
    int *stat;
    char *errmsg;
    size_t length;
};

/* Sets stat= to 0, where there is one. */
void caf_report_success(const struct caf_report *report);

/* Sets stat= to the code, and errmsg= to the text, cut or padded by blanks. Where there is no stat=, all images end. */
void caf_report_error(const struct caf_report *report, int code, const char *format, ...)
    __attribute__((format(printf, 3, 4)));

/* Reports what a synchronisation was answered: 0, CAF_STAT_STOPPED_IMAGE or CAF_STAT_FAILED_IMAGE. */
void caf_report_code(const struct caf_report *report, int code, const char *call);

/* Tells the error on standard error, and ends all images with status 1. */
_Noreturn void caf_die(const char *format, ...) __attribute__((format(printf, 1, 2)));

/* As malloc, calloc and realloc; where there is no memory, all images end. At least one byte is taken. */
void *caf_memory(size_t bytes);
void *caf_zeros(size_t bytes);
void *caf_memory_again(void *old, size_t bytes);

#endif
