/* gasnetrun -n N PROGRAM ARGS: starts N nodes of a GASNet program on this host, and ends with the first status that
 * isn't 0. Its words are read by options.h, what nodes write is told apart by lines.h. With --hosts its children are no
 * nodes, but start a part of them elsewhere (parts.h), where this program runs with --part. */
#include <arpa/inet.h>
#include <errno.h>
#include <fcntl.h>
#include <inttypes.h>
#include <netinet/in.h>
#include <signal.h>
#include <stdbool.h>
#include <stdio.h>
#include <stdlib.h>
#include <string.h>
#include <sys/prctl.h>
#include <sys/random.h>
#include <sys/resource.h>
#include <sys/signalfd.h>
#include <sys/stat.h>
#include <sys/wait.h>
#include <poll.h>
#include <time.h>
#include <unistd.h>

#include "gasnet_c.h"
#include "lines.h"
#include "options.h"
#include "parts.h"
#include "runner.h"
#include "running.h"
#include "sockets.h"

enum {
    NODES = GASNET_C_MAX_NODES,
    REFUSED = 71,
    SSH_FAILED = 255,
    GRACE = 1000,
    MOST_GRACE = 1000000,
    LAST = 2000,
    TEXT = 24
};
enum { OWN = 3, BEHIND = 300000 }; /* what is awaited beside what nodes write; microseconds */

struct run {
    struct gasnetl_options options;
    struct gasnetl_lines lines;
    struct gasnetl_parts parts; /* those on other hosts: the children are these, and no nodes */
    int first, nodes, alive;    /* the rank of the first child, how many there were, and are */
    int grace;                  /* the milliseconds that the others have where a node failed: GASNET_GRACE */
    struct rlimit files;        /* the descriptors that this process could have as it was started */
    int sockets[NODES];
    char addresses[NODES * TEXT];
    pid_t children[NODES];
    int lifeline[2]; /* a pipe whose writing end, until it is -1, this process alone has: the children end as it does */
    int reports[2];  /* a pipe by which nodes tell how they end (runner.h) */
    bool is_by_peer[NODES]; /* a node told that another one ended it */
    pid_t tellers[NODES];   /* the process of a node that tells by SIGUSR2 where its threads wait; 0 for none */
    int signals;
    bool is_watching; /* the standard input of a part, whose end ends its nodes */
    int status;       /* the first that isn't 0 */
    bool is_settled;  /* it is that of the node that ended the job, or of a signal to this process */
    bool is_told;     /* a node told that it ended the job with status 0: that is the job's */
    int ends;         /* 0: no; 1: a node failed, the others may end by themselves; 2: TERM was sent; 3: KILL was */
    int64_t next;     /* when it goes one step further, in milliseconds, where `ends` isn't 0 */
};

static _Noreturn void fail(const char *what) {
    fprintf(stderr, "gasnetrun: %s (%s)\n", what, strerror(errno));
    exit(REFUSED);
}

static int64_t clock_now(void) {
    struct timespec now;
    clock_gettime(CLOCK_MONOTONIC, &now);
    return (int64_t)now.tv_sec * 1000 + now.tv_nsec / 1000000;
}

/* A socket of each node on this host, at any free port; none where the job has several hosts. */
static void make_sockets(struct run *run) {
    size_t length = 0;
    for (int node = 0; node < run->nodes; node++) {
        run->sockets[node] = -1;
        if (run->parts.count || run->options.part >= 0)
            continue;
        struct sockaddr_in address = { .sin_family = AF_INET, .sin_addr.s_addr = htonl(INADDR_LOOPBACK) };
        socklen_t size = sizeof address;
        run->sockets[node] = gasnetl_socket_bind((struct sockaddr *)&address, size);
        if (run->sockets[node] < 0 || getsockname(run->sockets[node], (struct sockaddr *)&address, &size))
            fail("no socket can be had");
        length +=
            (size_t)snprintf(run->addresses + length, TEXT, "%s127.0.0.1:%u", node ? "," : "", ntohs(address.sin_port));
    }
}

/* Many nodes have more pipes and sockets here than a process usually may have descriptors. The nodes get the limit back
 * with which this process was started. */
static void widen_files(struct run *run) {
    if (getrlimit(RLIMIT_NOFILE, &run->files))
        fail("no limit can be had");
    const struct rlimit all = { run->files.rlim_max, run->files.rlim_max };
    setrlimit(RLIMIT_NOFILE, &all);
}

static void set_number(const char *name, uint64_t value) {
    char text[TEXT];
    snprintf(text, sizeof text, "%" PRIu64, value);
    if (setenv(name, text, 1))
        fail("there is no memory");
}

/* Names the pipe by its inode too: a descriptor of this number may be something else where the variable is
 * inherited. */
static void set_runner(const struct run *run) {
    struct stat pipe;
    char text[2 * TEXT];
    if (fstat(run->reports[1], &pipe))
        fail("no pipe can be had");
    snprintf(text, sizeof text, "%d:%llu", run->reports[1], (unsigned long long)pipe.st_ino);
    if (setenv("GASNET_RUNNER", text, 1))
        fail("there is no memory");
}

/* What is said of the whole job: a part of it was told. */
static void set_job(const struct run *run) {
    uint64_t job;
    if (getrandom(&job, sizeof job, 0) != sizeof job)
        fail("no random number can be had");
    set_number("GASNET_JOB", job);
    set_number("GASNET_NODES", (uint64_t)run->options.nodes);
    if (run->parts.count ? !gasnetl_parts_name(&run->parts) : setenv("GASNET_ADDRESSES", run->addresses, 1))
        fail("there is no memory");
}

static void set_pipes(const struct run *run) {
    if (run->parts.count)
        return;
    set_number("GASNET_LIFELINE", (uint64_t)run->lifeline[0]);
    set_runner(run);
}

/* Becomes the program; a debugger that starts it, where `is_debugged`. */
static _Noreturn void become_program(char **words, bool is_debugged) {
    int count = 0;
    while (words[count])
        count++;
    char *debugger[count + 5];
    memcpy(debugger, (char *[]){ "sh", "-c", "exec ${GASNET_GDB:-gdb} --args \"$@\"", "gasnetrun" },
           4 * sizeof(char *));
    memcpy(debugger + 4, words, (size_t)(count + 1) * sizeof(char *));
    if (is_debugged)
        words = debugger;
    execvp(words[0], words);
    fprintf(stderr, "gasnetrun: %s can't be started (%s)\n", words[0], strerror(errno));
    _exit(127);
}

/* Only what the node is to have stays open in it. The standard input is node 0's, or that of the debugger; over several
 * hosts it is nobody's. */
static void have_descriptors(const struct run *run, int node) {
    const int debugged = run->options.debugged;
    const bool reads = node == (debugged < 0 ? 0 : debugged) && run->options.part < 0;
    if (!reads && !freopen("/dev/null", "r", stdin))
        exit(REFUSED);
    if (node != debugged)
        gasnetl_lines_become(&run->lines, node);
    if (run->sockets[node] >= 0)
        fcntl(run->sockets[node], F_SETFD, 0);
    fcntl(run->lifeline[0], F_SETFD, 0);
    fcntl(run->reports[1], F_SETFD, 0);
}

static _Noreturn void become_node(const struct run *run, int node) {
    have_descriptors(run, node);
    set_number("GASNET_RANK", (uint64_t)(run->first + node));
    if (run->sockets[node] >= 0)
        set_number("GASNET_SOCKET", (uint64_t)run->sockets[node]);
    setrlimit(RLIMIT_NOFILE, &run->files);
    become_program(run->options.words, node == run->options.debugged);
}

/* The end of the lifeline is the end of the part's standard input. */
static _Noreturn void become_part(const struct run *run, int part) {
    setrlimit(RLIMIT_NOFILE, &run->files);
    gasnetl_part_become(&run->parts.of[part], &run->options, run->lifeline);
}

static _Noreturn void become_child(const struct run *run, int child, pid_t parent) {
    sigset_t none;
    prctl(PR_SET_PDEATHSIG, SIGKILL);
    if (getppid() != parent)
        exit(REFUSED);
    sigemptyset(&none);
    sigprocmask(SIG_SETMASK, &none, NULL);
    if (run->parts.count)
        become_part(run, child);
    become_node(run, child);
}

static void start(struct run *run) {
    pid_t parent = getpid();
    for (int node = 0; node < run->nodes; node++) {
        pid_t child = fork();
        if (child < 0)
            fail("no process can be had");
        if (!child)
            become_child(run, node, parent);
        run->children[node] = child;
        run->alive++;
    }
    for (int node = 0; node < run->nodes; node++)
        if (run->sockets[node] >= 0)
            close(run->sockets[node]);
    close(run->lifeline[0]);
    close(run->reports[1]);
    gasnetl_lines_start(&run->lines);
}

static void cut_lifeline(struct run *run) {
    if (run->lifeline[1] >= 0)
        close(run->lifeline[1]);
    run->lifeline[1] = -1;
}

static void end_all(struct run *run, int signal) {
    for (int node = 0; node < run->nodes; node++)
        if (run->children[node])
            kill(run->children[node], signal);
}

/* Goes one step further in ending the job. Parts end their nodes by both signals as the lifeline is cut. */
static void end_more(struct run *run) {
    if (run->ends < 3)
        run->ends++;
    run->next = clock_now() + (run->ends == 1 ? run->grace : run->parts.count ? 2 * LAST : LAST);
    if (run->ends == (run->parts.count ? 2 : 3))
        cut_lifeline(run);
    if (run->ends == 2 && !run->parts.count)
        end_all(run, SIGTERM);
    if (run->ends == 3)
        end_all(run, SIGKILL);
}

/* A part told of its nodes. That there was none is told here. */
static void tell_part_end(const struct gasnetl_part *part, int how) {
    if (WIFSIGNALED(how) || WEXITSTATUS(how) == SSH_FAILED)
        fprintf(stderr, "gasnetrun: what starts node %d and so on at %s ended with %s %d; the others are ended\n",
                part->first, part->host, WIFSIGNALED(how) ? "signal" : "status",
                WIFSIGNALED(how) ? WTERMSIG(how) : WEXITSTATUS(how));
}

static void tell_end(int node, int how) {
    if (WIFSIGNALED(how))
        fprintf(stderr, "gasnetrun: node %d was ended by signal %d (%s); the others are ended\n", node, WTERMSIG(how),
                strsignal(WTERMSIG(how)));
    else
        fprintf(stderr, "gasnetrun: node %d ended with status %d; the others are ended\n", node, WEXITSTATUS(how));
}

/* Whether the end is another's doing: that of the node that ended this one, or of this process. */
static bool is_of_another(const struct run *run, int node, int how) {
    if (run->parts.count && WIFEXITED(how) && WEXITSTATUS(how) == GASNETL_PART_ENDED)
        return true;
    return run->is_by_peer[node] || (run->ends > 1 && WIFSIGNALED(how));
}

/* The first node that ends the job is named, and its status is the job's. Those that it ended may come before it. */
static void note_end(struct run *run, int node, int how) {
    int status = WIFSIGNALED(how) ? 128 + WTERMSIG(how) : WEXITSTATUS(how);
    bool is_first = !is_of_another(run, node, how);
    run->children[node] = 0;
    run->tellers[node] = 0;
    run->alive--;
    if (!status || run->is_settled || run->is_told)
        return;
    if (is_first || !run->status)
        run->status = status;
    if (is_first && run->parts.count)
        tell_part_end(&run->parts.of[node], how);
    else if (is_first)
        tell_end(run->first + node, how);
    run->is_settled = is_first;
    if (!run->ends)
        end_more(run);
    if (status > 128 && run->ends < 2) /* it can't have told the others */
        end_more(run);
}

/* A node ended the job with status 0: the others have the grace, as where one failed. */
static void take_told(struct run *run) {
    run->is_told = run->is_told || !run->status;
    if (!run->ends)
        end_more(run);
}

/* Takes what nodes told. */
static void take_reports(struct run *run) {
    struct gasnetl_report report;
    while (read(run->reports[0], &report, sizeof report) == sizeof report) {
        const int node = report.node - run->first;
        if (report.kind == GASNETL_ENDED_BY_PEER && node >= 0 && node < run->nodes)
            run->is_by_peer[node] = true;
        if (report.kind == GASNETL_ENDED_WELL)
            take_told(run);
        if (report.kind == GASNETL_TELLS_STACKS && node >= 0 && node < run->nodes)
            run->tellers[node] = report.process;
    }
}

/* Of each node that ended it takes first what that told. */
static void reap(struct run *run) {
    int how;
    pid_t child;
    while ((child = waitpid(-1, &how, WNOHANG)) > 0) {
        take_reports(run);
        for (int node = 0; node < run->nodes; node++)
            if (run->children[node] == child)
                note_end(run, node, how);
    }
}

/* A signal ends this process, and the nodes with it. */
static void take_signal(struct run *run, int signal) {
    if (!run->status)
        run->status = 128 + signal;
    run->is_settled = true;
    if (run->ends < 2)
        run->ends = 1;
    end_more(run);
}

/* Takes the end of a part's standard input: who started it is gone, or ends the job. */
static void take_input(struct run *run) {
    char byte;
    if (read(STDIN_FILENO, &byte, 1) > 0)
        return;
    run->is_watching = false;
    if (!run->is_settled)
        run->status = GASNETL_PART_ENDED;
    run->is_settled = true;
    if (run->ends < 2)
        run->ends = 1;
    end_more(run);
}

/* The milliseconds until the job's end goes one step further; -1 where it doesn't end. */
static int time_left(const struct run *run) {
    int64_t left = run->next - clock_now();
    return !run->ends ? -1 : left < 0 ? 0 : (int)left;
}

/* Whether a process is stopped, by a signal or a debugger, by what Linux says of it. */
static bool is_stopped(pid_t process) {
    char path[TEXT + 8], state = 0;
    snprintf(path, sizeof path, "/proc/%d/stat", process);
    FILE *file = fopen(path, "r");
    if (file && fscanf(file, "%*d (%*[^)]) %c", &state) != 1)
        state = 0;
    if (file)
        fclose(file);
    return state == 'T' || state == 't';
}

/* Has each node tell where its threads wait. Of one that can't it tells why. */
static void ask_stacks(const struct run *run) {
    if (run->parts.count)
        fprintf(stderr, "gasnetrun: the nodes are on other hosts: there gasnetrun --stacks asks those of the host\n");
    for (int node = 0; node < run->nodes && !run->parts.count; node++) {
        const pid_t teller = run->tellers[node];
        const int rank = run->first + node;
        if (!run->children[node])
            fprintf(stderr, "gasnetrun: node %d has ended\n", rank);
        else if (!teller)
            fprintf(stderr, "gasnetrun: node %d hasn't called gasnet_init, or handles SIGUSR2 itself\n", rank);
        else if (is_stopped(teller))
            fprintf(stderr, "gasnetrun: node %d (process %d) is stopped, by a signal or a debugger\n", rank, teller);
        else if (!gasnetl_running_catches(teller, SIGUSR2)) /* it would end what has the number now */
            fprintf(stderr, "gasnetrun: node %d (process %d) has ended, or is another program now\n", rank, teller);
        else
            kill(teller, SIGUSR2);
    }
}

/* Takes a signal to this process. */
static void take_signals(struct run *run) {
    struct signalfd_siginfo signal;
    if (read(run->signals, &signal, sizeof signal) != sizeof signal)
        return;
    if (signal.ssi_signo == SIGUSR2)
        ask_stacks(run);
    else if (signal.ssi_signo != SIGCHLD)
        take_signal(run, (int)signal.ssi_signo);
}

/* Waits for a signal, of a child or one that ends this process, for what a node tells, or for what it writes. */
static void wait_once(struct run *run) {
    struct pollfd ready[OWN + GASNETL_STREAMS] = { { .fd = run->signals, .events = POLLIN },
                                                   { .fd = run->reports[0], .events = POLLIN },
                                                   { .fd = run->is_watching ? STDIN_FILENO : -1, .events = POLLIN } };
    int got = poll(ready, OWN + gasnetl_lines_await(&run->lines, ready + OWN), time_left(run));
    if (!time_left(run))
        end_more(run);
    if (got <= 0)
        return;
    gasnetl_lines_take(&run->lines, ready + OWN);
    take_reports(run);
    if (ready[1].revents & POLLHUP) { /* the nodes closed the pipe, or ended */
        close(run->reports[0]);
        run->reports[0] = -1;
    }
    if (ready[0].revents & POLLIN)
        take_signals(run);
    if (ready[2].revents)
        take_input(run);
}

/* Whether whoever started this process has it ignore the signal, as nohup does, or a shell where it is in the
 * background. */
static bool is_ignored(int signal) {
    struct sigaction action;
    return !sigaction(signal, NULL, &action) && action.sa_handler == SIG_IGN;
}

/* Those that end the nodes, but for what is ignored. That children end is told where it isn't ignored. */
static void catch_signals(struct run *run) {
    const int ends[] = { SIGTERM, SIGINT, SIGHUP };
    sigset_t set;
    sigemptyset(&set);
    signal(SIGCHLD, SIG_DFL);
    sigaddset(&set, SIGCHLD);
    sigaddset(&set, SIGUSR2);
    for (int i = 0; i < 3; i++)
        if (!is_ignored(ends[i]))
            sigaddset(&set, ends[i]);
    sigprocmask(SIG_BLOCK, &set, NULL);
    run->signals = signalfd(-1, &set, SFD_CLOEXEC);
    if (run->signals < 0 || pipe2(run->lifeline, O_CLOEXEC) || pipe2(run->reports, O_CLOEXEC) ||
        fcntl(run->reports[0], F_SETFL, O_NONBLOCK))
        fail("no signals can be had");
}

/* Has something at the descriptors of the standard streams, so that nothing of this process' own stands there. */
static void fill_streams(void) {
    int filled = 0;
    while (filled >= 0 && filled <= STDERR_FILENO)
        filled = open("/dev/null", O_RDWR);
    if (filled >= 0)
        close(filled);
}

/* Answers the milliseconds of GASNET_GRACE, or those that hold without it; where it is broken it says so, and ends. */
static int read_grace(void) {
    const char *text = getenv("GASNET_GRACE");
    char *end;
    if (!text)
        return GRACE;
    long value = strtol(text, &end, 10);
    if (*text && !*end && value >= 0 && value <= MOST_GRACE)
        return (int)value;
    fprintf(stderr, "gasnetrun: GASNET_GRACE is '%s': set it to a number from 0 to %d, or unset it\n", text,
            MOST_GRACE);
    exit(GASNETL_USAGE);
}

/* Has pipes for what the nodes write, where lines are to tell their node. With a debugger no peer is taken for gone
 * that is stopped in it, and the terminal's interrupt is the debugger's. */
static void prepare(struct run *run) {
    if (run->options.debugged >= 0) {
        signal(SIGINT, SIG_IGN);
        setenv("GASNET_PEER_TIMEOUT", "0", 0);
    }
    if (run->options.prefixes && !run->parts.count && !gasnetl_lines_open(&run->lines, run->first, run->nodes))
        fail("no pipes can be had");
}

/* The children are nodes of this host, or parts on others. */
static void share_out(struct run *run) {
    run->nodes = run->options.nodes;
    run->is_watching = run->options.part >= 0;
    run->first = run->is_watching ? run->options.part : 0;
    if (!run->options.hosts)
        return;
    if (!gasnetl_parts_read(&run->parts, run->options.hosts, run->nodes)) {
        fprintf(stderr, "gasnetrun: --hosts has no host, or one that begins with '-': name hosts as h0,h1\n");
        exit(GASNETL_USAGE);
    }
    run->nodes = run->parts.count;
}

/* The status of this process. A part whose nodes others ended ends behind that of the node which did it. */
static int judge(const struct run *run) {
    if (!run->status || run->is_settled || run->is_told)
        return run->status;
    if (run->options.part >= 0)
        usleep(BEHIND);
    else
        fprintf(stderr, "gasnetrun: the job ended with status %d\n", run->status);
    return run->status;
}

int main(int argc, char **argv) {
    static struct run run;
    gasnetl_options_read(&run.options, argc, argv);
    share_out(&run);
    fill_streams();
    if (run.is_watching && !gasnetl_part_take_environment())
        return GASNETL_PART_ENDED;
    run.grace = read_grace();
    widen_files(&run);
    prepare(&run);
    catch_signals(&run);
    make_sockets(&run);
    if (!run.is_watching)
        set_job(&run);
    set_pipes(&run);
    start(&run);
    while (run.alive) {
        wait_once(&run);
        reap(&run);
    }
    gasnetl_lines_end(&run.lines);
    return judge(&run);
}
