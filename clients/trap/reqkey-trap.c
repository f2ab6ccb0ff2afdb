/*
 * reqkey-trap: programs that make the system calls add_key(2), request_key(2) and keyctl(2) themselves are answered by a daemon reqkeyd.
 * man/reqkey-trap.1 is the manual. The parts, each with its own in its header:
 *
 *     supervise.h   a program and its supervisor        filter.h     the filter that hands calls to it
 *     listen.h      containers                          passing.h    descriptors over sockets
 *     state.h       what a runtime says of a container  listener.h   the threads that receive calls
 *     answer.h      one call                            caller.h     who makes it
 *     memory.h      the caller's memory                 session.c    the library's session.h for the caller
 *     processes.h   which ring a process is in          marks.h      marks of processes
 *     rings.h       rings, and connections to the daemon
 *     sets.h        what each container has             handler.h    the session of a handler
 *     calls_of.h    the numbers of the system calls     kernel.h     types that are left to the kernel
 *     shown.h       the uids that the caller is told    mappings.h   what the caller may write
 *     descriptors.h
 *
 * What a call does is ../keyutils/calls.c, as in the library.
 */
#include "answer.h"
#include "handler.h"
#include "kernel.h"
#include "listen.h"
#include "rings.h"
#include "supervise.h"

#include <errno.h>
#include <fcntl.h>
#include <getopt.h>
#include <limits.h>
#include <stdbool.h>
#include <stdio.h>
#include <stdlib.h>
#include <string.h>
#include <sys/syscall.h>
#include <unistd.h>

enum { FAULT = 1, MISUSE = 2 };

static const char USAGE[] = "Usage: reqkey-trap [--socket <PATH>] [--kernel <TYPES>] [--] <PROGRAM> [WORDS]...\n"
                            "       reqkey-trap --key <KEY> [--kernel <TYPES>] [--] <HANDLER> [WORDS]...\n"
                            "       reqkey-trap --listen <PATH> [--socket <PATH>] [--kernel <TYPES>]\n";

static const char HELP[] = "Runs a program whose system calls add_key, request_key and keyctl a request_key daemon answers.\n\n"
                           "%s\n"
                           "Options:\n"
                           "      --socket <PATH>   The socket of the daemon; without it, that of the environment, REQKEYD_SOCKET\n"
                           "      --key <KEY>       Run a handler of the daemon, with the authority over this key assumed\n"
                           "      --listen <PATH>   Answer for containers, whose runtime connects to this socket\n"
                           "      --kernel <TYPES>  Leave keys of these types to the kernel, with its own rings: logon,encrypted\n"
                           "  -h, --help            Print help\n"
                           "  -V, --version         Print version\n\n"
                           "Status: that of the program, or 128 and the number of the signal that killed it; 127 if there is no such program, 126 if it\n"
                           "can't be started, 1 if the daemon can't be reached or the program can't be put under a filter, 2 for a usage error.\n";

#ifndef VERSION
#define VERSION "0.2.0"
#endif

struct words {
    const char *socket, *key, *listen, *kernel;
    char **program;
};

static int fault(const char *what, const char *why)
{
    fprintf(stderr, "reqkey-trap: %s: %s\n", what, why);
    return FAULT;
}

/* Reads the options; -1, or the status with which to end. */
static int read_words(int count, char **words, struct words *told)
{
    static const struct option OPTIONS[] = {{"socket", required_argument, NULL, 's'}, {"key", required_argument, NULL, 'k'},
                                            {"listen", required_argument, NULL, 'l'}, {"kernel", required_argument, NULL, 'n'},
                                            {"help", no_argument, NULL, 'h'},         {"version", no_argument, NULL, 'V'},
                                            {NULL, 0, NULL, 0}};
    for (int option; (option = getopt_long(count, words, "+hV", OPTIONS, NULL)) >= 0;)
        switch (option) {
        case 's':
            told->socket = optarg;
            break;
        case 'k':
            told->key = optarg;
            break;
        case 'l':
            told->listen = optarg;
            break;
        case 'n':
            told->kernel = optarg;
            break;
        case 'h':
            return printf(HELP, USAGE) < 0;
        case 'V':
            return printf("reqkey-trap %s\n", VERSION) < 0;
        default:
            fputs(USAGE, stderr);
            return MISUSE;
        }
    told->program = words + optind;
    bool right = told->listen != NULL ? optind == count && told->key == NULL : optind < count && (told->key == NULL || told->socket == NULL);
    right = right && (told->kernel == NULL || kernel_takes(told->kernel));
    if (!right)
        fputs(USAGE, stderr);
    return right ? -1 : MISUSE;
}

/* The socket by its whole path, since the program may change its folder; as it is if that has no place in an address. */
static const char *whole(const char *path)
{
    static char absolute[PATH_MAX];
    char folder[PATH_MAX];
    if (path[0] == '/' || getcwd(folder, sizeof folder) == NULL || strlen(folder) + 1 + strlen(path) > 107)
        return path;
    snprintf(absolute, sizeof absolute, "%s/%s", folder, path);
    return absolute;
}

/* Another reqkey-trap answers for this process already: a new session ring there, and the program. */
static int run_inside(const char *socket, char **words)
{
    static char others[PATH_MAX];
    long length = syscall(SYS_keyctl, ANSWER_SOCKET, others, sizeof others);
    if (length <= 0 || (size_t)length > sizeof others)
        return -1;
    if (socket != NULL && strcmp(socket, others) != 0)
        return fault("another supervisor answers for this process, for the daemon at", others);
    if (kernel_has_any())
        return fault("--kernel", "another supervisor answers for this process");
    if (syscall(SYS_keyctl, 1 /* KEYCTL_JOIN_SESSION_KEYRING */, NULL) < 0)
        return fault("a new session ring", strerror(errno));
    execvp(words[0], words);
    int status = errno == ENOENT || errno == ENOTDIR ? 127 : 126;
    fault(words[0], strerror(errno));
    return status;
}

/* Where the caller has closed its standard streams, nothing else takes their numbers. They are closed for the program, too. */
static void fill_streams(void)
{
    int nothing;
    do
        nothing = open("/dev/null", O_RDWR | O_CLOEXEC);
    while (nothing >= 0 && nothing <= STDERR_FILENO);
    if (nothing >= 0)
        close(nothing);
}

static int run_handler(const char *word, char **words)
{
    char *end;
    errno = 0;
    long key = strtol(word, &end, 10);
    if (errno != 0 || *end != 0 || end == word || key <= 0 || key > INT32_MAX) {
        fputs(USAGE, stderr);
        return MISUSE;
    }
    int result = handler_begin((int32_t)key);
    return result < 0 ? fault("the authority", reqkey_text(result)) : supervise(words);
}

static int run_program(const char *socket, char **words)
{
    struct reqkey *session = ring_alone(geteuid(), getegid());
    if (session == NULL)
        return fault(socket, strerror(errno));
    reqkey_free(session);
    return supervise(words);
}

int main(int count, char **words)
{
    struct words told = {NULL, NULL, NULL, NULL, words};
    fill_streams();
    int status = read_words(count, words, &told);
    if (status >= 0)
        return status;
    if (told.key != NULL)
        return run_handler(told.key, told.program);
    const char *named = told.socket != NULL ? whole(told.socket) : NULL, *set = getenv("REQKEYD_SOCKET");
    if (told.listen == NULL && (status = run_inside(named, told.program)) >= 0)
        return status;
    if (named == NULL && set != NULL && set[0] != 0)
        named = whole(set);
    if (named == NULL)
        return fault("socket", "neither --socket nor REQKEYD_SOCKET says where the daemon is");
    rings_at(named);
    answer_socket(named);
    return told.listen == NULL ? run_program(named, told.program) : listen_at(told.listen);
}
