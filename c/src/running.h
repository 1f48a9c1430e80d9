/* Other processes of gasnetrun, which run jobs. */
#ifndef GASNETL_RUNNING_H
#define GASNETL_RUNNING_H

#include <stdbool.h>

/* Has the nodes of a running gasnetrun tell where their threads wait (stacks.h): of the process of this number, or,
 * where it is 0, of the only one that this user has. Where there is none, or several, a line says so. Answers the exit
 * status. */
int gasnetl_running_ask(int process);

/* Whether there is a process of this number that handles the signal, so that it doesn't end by it. */
bool gasnetl_running_catches(int process, int signal);

#endif
