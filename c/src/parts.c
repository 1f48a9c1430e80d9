#include "parts.h"

#include <errno.h>
#include <limits.h>
#include <signal.h>
#include <stdio.h>
#include <stdlib.h>
#include <string.h>
#include <unistd.h>

enum { WORDS = 64, NOT_STARTED = 127 };

static const char between[] = ", \t\r\n";

/* The hosts of a text, as words of it. */
static int read_hosts(struct gasnetl_parts *parts, char *hosts, int most) {
    char *rest, *host = strtok_r(hosts, between, &rest);
    int count = 0;
    for (; host && count < most; host = strtok_r(NULL, between, &rest))
        parts->of[count++].host = host;
    return count;
}

bool gasnetl_parts_read(struct gasnetl_parts *parts, char *hosts, int nodes) {
    const int count = parts->count = read_hosts(parts, hosts, nodes);
    int first = 0;
    for (int i = 0; i < count; i++) {
        struct gasnetl_part *part = &parts->of[i];
        if (*part->host == '-')
            return false;
        part->first = first;
        part->nodes = nodes / count + (i < nodes % count);
        first += part->nodes;
    }
    return count;
}

/* Where its nodes are: the host without the user that ssh is told. */
static const char *address_of(const struct gasnetl_part *part) {
    const char *at = strrchr(part->host, '@');
    return at ? at + 1 : part->host;
}

/* Writes the host of a part as often as it has nodes. */
static void write_nodes(FILE *to, const struct gasnetl_part *part) {
    for (int i = 0; i < part->nodes; i++)
        fprintf(to, "%s ", address_of(part));
}

bool gasnetl_parts_name(const struct gasnetl_parts *parts) {
    char *hosts = NULL;
    size_t length;
    FILE *to = open_memstream(&hosts, &length);
    for (int i = 0; to && i < parts->count; i++)
        write_nodes(to, &parts->of[i]);
    bool is_named = to && !fclose(to) && !setenv("GASNET_HOSTS", hosts, 1);
    free(hosts);
    unsetenv("GASNET_ADDRESSES"); /* where this process is a node itself */
    unsetenv("GASNET_HOSTS_FILE");
    unsetenv("GASNET_RANK");
    unsetenv("GASNET_SOCKET");
    unsetenv("GASNET_LIFELINE");
    unsetenv("GASNET_RUNNER");
    return is_named;
}

/* Writes a word as a shell reads it. */
static void write_word(FILE *to, const char *word) {
    fputs(" '", to);
    for (; *word; word++) {
        if (*word == '\'')
            fputs("'\\''", to);
        else
            fputc(*word, to);
    }
    fputc('\'', to);
}

static void write_words(FILE *to, char **words) {
    for (; *words; words++)
        write_word(to, *words);
}

/* The command that a part's host runs, for a shell; NULL where it can't be made. */
static char *command_of(const struct gasnetl_part *part, const struct gasnetl_options *options) {
    char folder[PATH_MAX], runner[PATH_MAX] = "", *command = NULL;
    size_t length;
    FILE *to = open_memstream(&command, &length);
    if (!to || !getcwd(folder, sizeof folder) || readlink("/proc/self/exe", runner, sizeof runner - 1) < 0)
        return NULL;
    fputs("cd", to);
    write_word(to, folder);
    fputs(" && exec", to);
    write_word(to, runner);
    fprintf(to, " -n %d --part %d%s", part->nodes, part->first, options->prefixes ? " --prefix-output" : "");
    write_words(to, options->words);
    return fclose(to) ? NULL : command;
}

/* ---- The environment of a part: texts with a zero behind each, and an empty one. */

static const char prefix[] = "GASNET_", not_told[] = "GASNET_SSH=";

static bool begins_with(const char *text, const char *front) { return !strncmp(text, front, strlen(front)); }

static void write_environment(FILE *to) {
    for (char **at = environ; *at; at++)
        if (begins_with(*at, prefix) && !begins_with(*at, not_told))
            fwrite(*at, 1, strlen(*at) + 1, to);
    fputc(0, to);
    fflush(to);
}

/* Writes the environment, and keeps the pipe open until the lifeline ends. */
static _Noreturn void feed(int pipe, const int lifeline[2]) {
    char byte;
    signal(SIGINT, SIG_IGN);
    signal(SIGTERM, SIG_IGN);
    signal(SIGHUP, SIG_IGN);
    close(lifeline[1]);
    FILE *to = fdopen(pipe, "w");
    if (to)
        write_environment(to);
    while (to && read(lifeline[0], &byte, 1) > 0)
        continue;
    _exit(0);
}

/* Has a process of its own write to the standard input of what this one becomes. */
static bool have_input(const int lifeline[2]) {
    int ends[2];
    if (pipe(ends))
        return false;
    const pid_t feeder = fork();
    if (!feeder) {
        close(ends[0]);
        feed(ends[1], lifeline);
    }
    close(ends[1]);
    const bool has = feeder > 0 && dup2(ends[0], STDIN_FILENO) >= 0;
    close(ends[0]);
    return has;
}

/* Reads a text; NULL where the standard input ends before, or there is no memory. */
static char *read_text(void) {
    char *text = NULL, byte = 1;
    size_t length;
    FILE *to = open_memstream(&text, &length);
    while (to && byte && read(STDIN_FILENO, &byte, 1) == 1)
        fputc(byte, to);
    if (to && !fclose(to) && !byte)
        return text;
    free(text);
    return NULL;
}

bool gasnetl_part_take_environment(void) {
    char *text;
    while ((text = read_text()) && *text)
        if (!begins_with(text, prefix) || putenv(text)) /* the environment has the text itself */
            return false;
    free(text);
    return text;
}

_Noreturn void gasnetl_part_become(const struct gasnetl_part *part, const struct gasnetl_options *options,
                                   const int lifeline[2]) {
    static char usual[] = "ssh -o BatchMode=yes";
    const char *named = getenv("GASNET_SSH");
    char *program = named && *named ? strdup(named) : usual, *rest, *words[WORDS + 3];
    char *command = command_of(part, options), *word = program ? strtok_r(program, " ", &rest) : NULL;
    int count = 0;
    for (; word && count < WORDS; word = strtok_r(NULL, " ", &rest))
        words[count++] = word;
    words[count] = (char *)(uintptr_t)part->host;
    words[count + 1] = command;
    words[count + 2] = NULL;
    if (count && command && have_input(lifeline))
        execvp(words[0], words);
    fprintf(stderr, "gasnetrun: %s, which is to start nodes on %s, can't be started (%s): set GASNET_SSH\n",
            count ? words[0] : "ssh", part->host, strerror(errno));
    _exit(NOT_STARTED);
}
