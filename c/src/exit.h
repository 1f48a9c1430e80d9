/* The end of a process, and of the job. */
#ifndef GASNETL_EXIT_H
#define GASNETL_EXIT_H

#include <stdbool.h>

struct gasnetl_job;

/* As a process ends that didn't call gasnet_exit, it leaves the job in the same way. This process is the node: a
 * child that it forks is none, and what that one ends is itself. False where the system has no memory. */
bool gasnetl_exit_start(struct gasnetl_job *job);

/* Ends this process, and tells all peers to end with this status. */
_Noreturn void gasnetl_end_all(struct gasnetl_job *job, int status);

/* The same for a thread that is in a call already, which a signal's handler interrupted, or which a longjmp left. */
_Noreturn void gasnetl_end_within(struct gasnetl_job *job, int status);

/* Raises SIGQUIT once, where the client handles it: the job ends by another node's exit or death. It comes to a
 * thread of the client's. */
void gasnetl_raise_quit(struct gasnetl_job *job);

/* A peer ended the job with this status: SIGQUIT is raised where the client handles it, and the process ends. */
_Noreturn void gasnetl_end_by_peer(struct gasnetl_job *job, int status);

#endif
