#include "options.h"

#include <limits.h>
#include <stdio.h>
#include <stdlib.h>
#include <string.h>

#include "gasnet.h"
#include "names.h"
#include "running.h"

static const char help[] =
    "  -n N               how many nodes\n"
    "  --hosts H0,H1      starts the nodes by ssh (GASNET_SSH) on these hosts, as many in a row on each\n"
    "  --prefix-output    begins each line that a node writes with its rank, as '3: '\n"
    "  --gdb RANK         starts that node in a debugger: gdb, or what GASNET_GDB names\n"
    "  --stacks [PID]     has the nodes of a running gasnetrun, of this process number, tell where their threads wait\n"
    "  --env              prints the variables that count, with their values and defaults\n"
    "  --help             prints this\n"
    "  --version          prints the version\n"
    "PROGRAM runs as N nodes of one job on this host, or on those hosts. The status is that of the node that ended the "
    "job.\n";

static void print_usage(FILE *to) {
    fprintf(to, "usage: gasnetrun -n N [OPTIONS] PROGRAM ARGS    (N from 1 to %d)\n", GASNET_MAXNODES);
}

static _Noreturn void refuse(void) {
    print_usage(stderr);
    exit(GASNETL_USAGE);
}

static _Noreturn void print_help(void) {
    print_usage(stdout);
    fputs(help, stdout);
    exit(0);
}

/* cafrun has its own name there. */
static _Noreturn void print_version(const char *name) {
    printf("%s %d.%d.%d (GASNet %d.%d.1)\n", name, GASNET_RELEASE_VERSION_MAJOR, GASNET_RELEASE_VERSION_MINOR,
           GASNET_RELEASE_VERSION_PATCH, GASNET_SPEC_VERSION_MAJOR, GASNET_SPEC_VERSION_MINOR);
    exit(0);
}

static _Noreturn void print_variables(void) {
    gasnetl_names_print(stdout);
    exit(0);
}

/* Reads a number from `least` to `most`; anything else is refused. */
static int read_number(const char *text, int least, int most) {
    char *end;
    long number = text ? strtol(text, &end, 10) : least - 1;
    if (number < least || number > most || !*text || *end)
        refuse();
    return (int)number;
}

static _Noreturn void ask_running(const char *process) {
    exit(gasnetl_running_ask(process ? read_number(process, 1, INT_MAX) : 0));
}

/* Reads the option at `at`, and answers the place of the next word. */
static char **read_option(struct gasnetl_options *options, char **at) {
    if (!strcmp(*at, "-n"))
        options->nodes = read_number(*++at, 1, GASNET_MAXNODES);
    else if (!strcmp(*at, "--gdb"))
        options->debugged = read_number(*++at, 0, GASNET_MAXNODES - 1);
    else if (!strcmp(*at, "--part"))
        options->part = read_number(*++at, 0, GASNET_MAXNODES - 1);
    else if (!strcmp(*at, "--hosts"))
        options->hosts = *++at;
    else if (!strcmp(*at, "--prefix-output"))
        options->prefixes = true;
    else if (!strcmp(*at, "--stacks"))
        ask_running(at[1]);
    else if (!strcmp(*at, "--env"))
        print_variables();
    else if (!strcmp(*at, "--help") || !strcmp(*at, "-h"))
        print_help();
    else if (!strncmp(*at, "--version", 9) && (!(*at)[9] || (*at)[9] == '='))
        print_version((*at)[9] ? *at + 10 : "gasnetrun");
    else
        refuse();
    return at + 1;
}

void gasnetl_options_read(struct gasnetl_options *options, int argc, char **argv) {
    char **at = argv + (argc > 0);
    *options = (struct gasnetl_options){ .debugged = -1, .part = -1 };
    while (*at && **at == '-')
        at = read_option(options, at);
    const bool is_apart = options->hosts || options->part >= 0;
    options->words = at;
    if (!options->nodes || !*at || options->debugged >= options->nodes || (is_apart && options->debugged >= 0))
        refuse();
}
