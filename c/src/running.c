#include "running.h"

#include <dirent.h>
#include <errno.h>
#include <signal.h>
#include <stdbool.h>
#include <stdio.h>
#include <stdlib.h>
#include <string.h>
#include <unistd.h>

#include "options.h"

enum { PATH = 64, LINE = 256, NAME = 32, REFUSED = 71 };

/* What Linux says of a process. */
struct process {
    char name[NAME];
    unsigned user;
    unsigned long long blocked, caught; /* a bit for each signal, from 1 on */
};

static bool read_process(int number, struct process *process) {
    char path[PATH], line[LINE];
    int found = 0;
    snprintf(path, sizeof path, "/proc/%d/status", number);
    FILE *file = fopen(path, "r");
    while (file && fgets(line, sizeof line, file))
        found += sscanf(line, "Name: %31s", process->name) == 1 || sscanf(line, "Uid: %u", &process->user) == 1 ||
                 sscanf(line, "SigBlk: %llx", &process->blocked) == 1 ||
                 sscanf(line, "SigCgt: %llx", &process->caught) == 1;
    if (file)
        fclose(file);
    return found == 4;
}

bool gasnetl_running_catches(int number, int signal) {
    struct process process;
    return read_process(number, &process) && process.caught >> (signal - 1) & 1;
}

/* Whether a process is this user's, and is another gasnetrun, which takes SIGUSR2: it would end one that doesn't yet.
 */
static bool is_running(int number) {
    struct process process;
    return number != getpid() && read_process(number, &process) && !strcmp(process.name, "gasnetrun") &&
           (process.user == getuid() || !geteuid()) && process.blocked >> (SIGUSR2 - 1) & 1;
}

/* The processes of gasnetrun: how many, and the first. */
static int find(int *first) {
    DIR *all = opendir("/proc");
    const struct dirent *one;
    int count = 0;
    while (all && (one = readdir(all))) {
        int process = atoi(one->d_name);
        if (process > 0 && is_running(process) && !count++)
            *first = process;
    }
    if (all)
        closedir(all);
    return count;
}

int gasnetl_running_ask(int process) {
    int count = process ? is_running(process) : find(&process);
    if (count != 1) {
        fprintf(stderr, "gasnetrun: %s: say its process number, as gasnetrun --stacks 4711\n",
                process && !count ? "no gasnetrun has this number"
                : count           ? "several jobs run"
                                  : "no job of gasnetrun runs");
        return GASNETL_USAGE;
    }
    if (!kill(process, SIGUSR2))
        return 0;
    fprintf(stderr, "gasnetrun: process %d can't be asked (%s)\n", process, strerror(errno));
    return REFUSED;
}
