/*
 * reqkey-door: lets each user ask a daemon reqkeyd as who it is, and as nobody else. man/reqkey-door.8 is the manual. The parts, each with its own in its
 * header:
 *
 *     listen.h   the sockets that it listens at    client.h   one who has connected, to the end
 *     loop.h     the one thread                    frame.h    a HELLO, and its reply
 *     peer.h     who has connected                 admits.h   who may come
 *     users.h    how many connections each has     flow.h     what is relayed
 *     daemon.h   the daemon's socket               log.h      lines on standard error
 */
#include "admits.h"
#include "client.h"
#include "daemon.h"
#include "listen.h"
#include "log.h"
#include "loop.h"

#include <errno.h>
#include <fcntl.h>
#include <getopt.h>
#include <stdio.h>
#include <stdlib.h>
#include <string.h>
#include <sys/prctl.h>
#include <sys/resource.h>
#include <unistd.h>

enum { FAULT = 1, MISUSE = 2, MOST_PER_USER = 100000 };

static const char USAGE[] = "Usage: reqkey-door [OPTIONS] --socket <PATH> [--listen <PATH>]\n";

static const char HELP[] = "Lets each user ask a request_key daemon as who the kernel says that it is, and as nobody else.\n\n"
                           "%s\n"
                           "Options:\n"
                           "      --socket <PATH>   The socket of the daemon, which the door alone can reach\n"
                           "      --listen <PATH>   The socket for clients; without it, the one that systemd hands over\n"
                           "      --per-user <N>    How many connections of one uid the daemon has at most [default: 16]\n"
                           "      --allow <WHO>     Let in this uid, as 1000 or 1000-1999, or this group, and nobody else; may be given several times\n"
                           "      --root-any        Let root act for any user, with any number of connections\n"
                           "  -h, --help            Print help\n"
                           "  -V, --version         Print version\n\n"
                           "Status: 0 after SIGTERM or SIGINT, 1 if the socket can't be listened at, 2 for a usage error.\n";

#ifndef VERSION
#define VERSION "0.2.0"
#endif

struct words {
    const char *socket, *listen;
};

static int fault(const char *what, const char *why)
{
    fprintf(stderr, "reqkey-door: %s: %s\n", what, why);
    return FAULT;
}

static int misuse(const char *what, const char *word)
{
    if (what != NULL)
        fprintf(stderr, "reqkey-door: %s: %s\n", what, word);
    fputs(USAGE, stderr);
    return MISUSE;
}

static bool is_number(const char *word, unsigned *value)
{
    char *end;
    errno = 0;
    unsigned long number = strtoul(word, &end, 10);
    *value = (unsigned)number;
    return errno == 0 && word[0] >= '0' && word[0] <= '9' && *end == 0 && number > 0 && number <= MOST_PER_USER;
}

/* One option; -1, or the status with which to end. */
static int take(int option, struct words *told)
{
    switch (option) {
    case 's':
        told->socket = optarg;
        return daemon_at(optarg) ? -1 : misuse("no path of a socket", optarg);
    case 'l':
        told->listen = optarg;
        return -1;
    case 'p':
        return is_number(optarg, &bounds.per_user) ? -1 : misuse("no number from 1 to 100000", optarg);
    case 'a':
        return admit(optarg) ? -1 : misuse("neither a uid nor a group here, or more than 256", optarg);
    case 'r':
        bounds.root_any = true;
        return -1;
    case 'h':
        return printf(HELP, USAGE) < 0;
    case 'V':
        return printf("reqkey-door %s\n", VERSION) < 0;
    default:
        return misuse(NULL, NULL);
    }
}

/* Reads the options; -1, or the status with which to end. */
static int read_words(int count, char **words, struct words *told)
{
    static const struct option OPTIONS[] = {{"socket", required_argument, NULL, 's'},   {"listen", required_argument, NULL, 'l'},
                                            {"per-user", required_argument, NULL, 'p'}, {"allow", required_argument, NULL, 'a'},
                                            {"root-any", no_argument, NULL, 'r'},       {"help", no_argument, NULL, 'h'},
                                            {"version", no_argument, NULL, 'V'},        {NULL, 0, NULL, 0}};
    int status = -1;
    for (int option; status < 0 && (option = getopt_long(count, words, "hV", OPTIONS, NULL)) >= 0;)
        status = take(option, told);
    if (status < 0 && (optind < count || told->socket == NULL))
        status = misuse(told->socket == NULL ? NULL : "no option", words[optind]);
    return status;
}

/* Where the caller has closed its standard streams, nothing else takes their numbers. */
static void fill_streams(void)
{
    int nothing;
    do
        nothing = open("/dev/null", O_RDWR | O_CLOEXEC);
    while (nothing >= 0 && nothing <= STDERR_FILENO);
    if (nothing >= 0)
        close(nothing);
}

/* Two descriptors for each connection; and no way to more rights than it has. */
static void prepare(void)
{
    struct rlimit limit;
    if (getrlimit(RLIMIT_NOFILE, &limit) == 0) {
        limit.rlim_cur = limit.rlim_max;
        setrlimit(RLIMIT_NOFILE, &limit);
    }
    prctl(PR_SET_NO_NEW_PRIVS, 1, 0, 0, 0);
    log_begin();
}

int main(int count, char **words)
{
    struct words told = {NULL, NULL};
    int sockets[SOCKETS];
    int status = read_words(count, words, &told);
    if (status >= 0)
        return status;
    int handed = listen_handed(sockets);
    fill_streams();
    if (handed < 0)
        return fault("the sockets of systemd", "a stream socket of the Unix domain is needed, at most 16");
    if ((handed > 0) == (told.listen != NULL))
        return misuse(handed > 0 ? "systemd has handed a socket over already" : "no --listen", handed > 0 ? told.listen : "and none from systemd");
    if (told.listen != NULL && (sockets[0] = listen_at(told.listen)) < 0)
        return fault(told.listen, strerror(errno));
    prepare();
    if (daemon_is_open())
        fputs("reqkey-door: others than the door can reach the daemon's socket\n", stderr);
    bool begun = loop_begin(sockets, handed > 0 ? (unsigned)handed : 1);
    int error = errno;
    if (begun) {
        fputs("reqkey-door: ready\n", stderr);
        loop_run();
    }
    listen_end();
    return begun ? 0 : fault("epoll", strerror(error));
}
