#include "supervise.h"

#include "descriptors.h"
#include "filter.h"
#include "handler.h"
#include "listener.h"
#include "passing.h"
#include "processes.h"
#include "sets.h"

#include <errno.h>
#include <fcntl.h>
#include <poll.h>
#include <signal.h>
#include <stdbool.h>
#include <stdio.h>
#include <stdlib.h>
#include <string.h>
#include <sys/prctl.h>
#include <sys/signalfd.h>
#include <sys/socket.h>
#include <sys/syscall.h>
#include <sys/wait.h>
#include <unistd.h>

enum { NOT_TRAPPED = 1, NOT_STARTED = 126, NOT_THERE = 127, SIGNALS = 128, PATIENCE = 100 /* milliseconds */ };

/* What the supervisor tells: the program's number, and then its status; and between them a process that can't be marked (processes.h). */
struct report {
    pid_t program;
    int status;
    pid_t limited; /* or 0 */
};

static const int HANDED_ON[] = {SIGHUP, SIGINT, SIGQUIT, SIGTERM, SIGUSR1, SIGUSR2};

static sigset_t before; /* the caller's mask */
static bool children_ignored;

static int shown(const char *what, int status)
{
    fprintf(stderr, "reqkey-trap: %s: %s\n", what, strerror(errno));
    return status;
}

static int status_of(int status)
{
    return WIFEXITED(status) ? WEXITSTATUS(status) : SIGNALS + WTERMSIG(status);
}

/* ---- the program */

/* Closes what the program is not to have, hands the listener to the supervisor, and waits until that answers. */
static bool trapped(int socket)
{
    char ready;
    int listener = filter_begin();
    if (listener < 0) {
        shown(errno == EBUSY ? "another supervisor answers for this process" : "seccomp", 0);
        return false;
    }
    bool done = pass(socket, listener) == 0 && read(socket, &ready, 1) == 1;
    close(listener);
    if (!done) {
        errno = EPIPE;
        shown("the supervisor", 0);
    }
    return done;
}

__attribute__((noreturn)) static void program(int socket, char **words)
{
    sigprocmask(SIG_SETMASK, &before, NULL);
    if (children_ignored)
        signal(SIGCHLD, SIG_IGN);
    if (!trapped(socket))
        _exit(NOT_TRAPPED);
    execvp(words[0], words);
    _exit(shown(words[0], errno == ENOENT || errno == ENOTDIR ? NOT_THERE : NOT_STARTED));
}

/* ---- the supervisor */

static int ended[2]; /* a pipe that is closed with the last program */
static int reports;

/* The supervisor has no standard error. */
static void limited(pid_t process)
{
    struct report told = {.limited = process};
    if (write(reports, &told, sizeof told) != sizeof told)
        errno = 0; /* nobody waits for it */
}

static void all_ended(void)
{
    close(ended[1]);
}

/* Keeps nothing of the caller's open, whose readers may wait for its end. */
static void leave_streams(void)
{
    int nothing = open("/dev/null", O_RDWR | O_CLOEXEC);
    for (int stream = STDIN_FILENO; stream <= STDERR_FILENO && nothing >= 0; stream++)
        dup2(nothing, stream);
    if (nothing > STDERR_FILENO)
        close(nothing);
    descriptors_leave();
}

/* Out of the reach of the terminal, and of the signals that the program gets: who ends all of a service sends them to each of its processes. */
static void leave_terminal(void)
{
    setpgid(0, 0);
    for (size_t i = 0; i < sizeof HANDED_ON / sizeof *HANDED_ON; i++)
        signal(HANDED_ON[i], SIG_IGN);
    signal(SIGPIPE, SIG_IGN);
    sigprocmask(SIG_SETMASK, &before, NULL);
}

static bool answers(int socket)
{
    char text[16];
    int listener = passed(socket, text, sizeof text);
    struct set *set = listener < 0 ? NULL : set_begin(NULL);
    if (listener >= 0 && set == NULL)
        close(listener);
    return set != NULL && pipe2(ended, O_CLOEXEC) == 0 && listener_begin(listener, set, all_ended) && send(socket, "y", 1, MSG_NOSIGNAL) == 1;
}

/* Collects what ends, and tells of the program. Until then, or until all have ended. */
static void collect(pid_t program)
{
    struct report told = {program, 0, 0};
    for (pid_t child; (child = waitpid(-1, &told.status, 0)) != program;)
        if (child < 0 && errno != EINTR)
            return;
    if (is_handler())
        handler_end();
    if (write(reports, &told, sizeof told) != sizeof told)
        errno = 0; /* nobody waits for it */
}

__attribute__((noreturn)) static void supervisor(int report, char **words)
{
    int pair[2];
    struct pollfd rest;
    reports = report;
    processes_limited = limited;
    prctl(PR_SET_CHILD_SUBREAPER, 1, 0, 0, 0);
    if (socketpair(AF_UNIX, SOCK_STREAM | SOCK_CLOEXEC, 0, pair) < 0)
        _exit(shown("socketpair", NOT_TRAPPED));
    pid_t child = fork();
    if (child == 0) {
        close(pair[0]); /* else the program would wait for itself if the supervisor ends */
        program(pair[1], words);
    }
    close(pair[1]);
    prctl(PR_SET_DUMPABLE, 0, 0, 0, 0); /* what it will have of each program is not for the others, which may be its user's, too */
    leave_terminal();
    descriptors_many();
    struct report told = {child, 0, 0};
    bool answering = child > 0 && write(report, &told, sizeof told) == sizeof told && answers(pair[0]);
    close(pair[0]);
    leave_streams();
    if (child > 0)
        collect(child);
    rest = (struct pollfd){answering ? ended[0] : -1, 0, 0};
    signal(SIGCHLD, SIG_IGN); /* what is left behind is collected by the kernel, but for what has ended already */
    while (waitpid(-1, NULL, WNOHANG) > 0)
        ;
    while (answering && poll(&rest, 1, -1) < 0 && errno == EINTR)
        ;
    exit(0);
}

/* ---- the caller's process */

/* Hands on what another process has sent. What a terminal sends has gone to the program already. */
static void hand_on(int signals, pid_t program)
{
    struct signalfd_siginfo signal;
    if (read(signals, &signal, sizeof signal) == sizeof signal && signal.ssi_code <= 0 && program > 0)
        kill(program, (int)signal.ssi_signo);
}

/* The next report of the program; false with the end of the supervisor. What comes before the program is known is kept for it. */
static bool next_report(int signals, int report, struct report *told)
{
    for (;;) {
        struct report next;
        struct pollfd both[2] = {{report, POLLIN, 0}, {signals, POLLIN, 0}};
        if (poll(both, told->program > 0 ? 2 : 1, -1) < 0)
            continue;
        if (both[0].revents == 0) {
            hand_on(signals, told->program);
            continue;
        }
        if (read(report, &next, sizeof next) != sizeof next)
            return false;
        if (next.limited == 0) {
            *told = next;
            return true;
        }
        fprintf(stderr, "reqkey-trap: " PROCESSES_LIMITED "\n", next.limited);
    }
}

/* The supervisor has ended before the program. The program is this process' child then. */
static int orphaned(pid_t supervisor, pid_t program)
{
    int status = 0;
    while (waitpid(supervisor, NULL, 0) < 0 && errno == EINTR)
        ;
    if (program == 0)
        return NOT_TRAPPED;
    fputs("reqkey-trap: the supervisor was killed: the calls of what it has started fail from now on\n", stderr);
    sigprocmask(SIG_SETMASK, &before, NULL);
    while (waitpid(program, &status, 0) < 0)
        if (errno != EINTR)
            return NOT_TRAPPED;
    return status_of(status);
}

/* Collects the supervisor, which ends now if nothing runs on. */
static void collect_supervisor(pid_t supervisor)
{
    struct pollfd end = {(int)syscall(SYS_pidfd_open, supervisor, 0), POLLIN, 0};
    if (end.fd >= 0 && poll(&end, 1, PATIENCE) > 0)
        waitpid(supervisor, NULL, 0);
}

int supervise(char **words)
{
    int report[2];
    sigset_t mask;
    struct report told = {0, 0, 0};
    sigemptyset(&mask);
    for (size_t i = 0; i < sizeof HANDED_ON / sizeof *HANDED_ON; i++)
        sigaddset(&mask, HANDED_ON[i]);
    sigprocmask(SIG_BLOCK, &mask, &before);
    children_ignored = signal(SIGCHLD, SIG_DFL) == SIG_IGN;
    int signals = signalfd(-1, &mask, SFD_CLOEXEC);
    if (signals < 0 || pipe2(report, O_CLOEXEC) < 0)
        return shown("pipe", NOT_TRAPPED);
    prctl(PR_SET_CHILD_SUBREAPER, 1, 0, 0, 0);
    pid_t child = fork();
    if (child < 0)
        return shown("fork", NOT_TRAPPED);
    if (child == 0)
        supervisor(report[1], words);
    close(report[1]);
    bool known = next_report(signals, report[0], &told) && next_report(signals, report[0], &told);
    if (!known)
        return orphaned(child, told.program);
    collect_supervisor(child);
    return status_of(told.status);
}
