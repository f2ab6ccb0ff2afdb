/* How fast programs are started: posix_spawn, a callout of 1 KiB written to the program, its output read to the end, and its end waited for.
 *
 * usage: spawn [--resident MIB] [--starts STARTS] [--rounds ROUNDS] [--only PROGRAM]
 *
 * Once with /bin/cat and once with a program that does nothing, 1 and 8 at a time; with so many MiB that were written to before. The best of so many
 * rounds is printed (5), each of so many starts (400). Or only one of the two programs is started, 1 at a time. */
#include "threads.h"

#include <errno.h>
#include <fcntl.h>
#include <signal.h>
#include <spawn.h>
#include <sys/wait.h>
#include <unistd.h>

enum { CALLOUT = 1024, AT_ONCE = 8 };

static const char usage[] = "usage: spawn [--resident MIB] [--starts STARTS] [--rounds ROUNDS] [--only PROGRAM]\n";

extern char **environ;

struct starter {
    const char *program;
    unsigned starts;
    size_t wanted; /* the bytes that the program is to output */
};

/* The child's standard input and output are pipes; no other end of them is left open in it. */
static pid_t start(const char *program, int *to, int *from)
{
    int in[2], out[2];
    pid_t child;
    posix_spawn_file_actions_t actions;
    need(pipe2(in, O_CLOEXEC) == 0 && pipe2(out, O_CLOEXEC) == 0, "pipe2");
    posix_spawn_file_actions_init(&actions);
    posix_spawn_file_actions_adddup2(&actions, in[0], STDIN_FILENO);
    posix_spawn_file_actions_adddup2(&actions, out[1], STDOUT_FILENO);
    char *words[] = {(char *)program, NULL};
    need((errno = posix_spawn(&child, program, &actions, NULL, words, environ)) == 0, program);
    posix_spawn_file_actions_destroy(&actions);
    close(in[0]);
    close(out[1]);
    *to = in[1];
    *from = out[0];
    return child;
}

static void *start_all(void *argument)
{
    const struct starter *s = argument;
    char callout[CALLOUT] = {0}, piece[4096];
    for (unsigned i = 0; i < s->starts; i++) {
        int to, from, status;
        pid_t child = start(s->program, &to, &from);
        /* a program that doesn't read may be gone already */
        if (write(to, callout, sizeof callout) < 0)
            need(errno == EPIPE, "write");
        close(to);
        size_t all = 0;
        for (ssize_t got; (got = read(from, piece, sizeof piece)) > 0;)
            all += (size_t)got;
        close(from);
        need(waitpid(child, &status, 0) == child && WIFEXITED(status) && WEXITSTATUS(status) == 0, "waitpid");
        need(all == s->wanted, "output");
    }
    return NULL;
}

static void bench(const char *program, size_t wanted, unsigned at_once, unsigned starts, unsigned rounds, unsigned resident)
{
    struct starter starters[AT_ONCE];
    for (unsigned i = 0; i < at_once; i++)
        starters[i] = (struct starter){program, starts / at_once, wanted};
    double took = (double)best_of(rounds, at_once, start_all, starters, sizeof *starters), made = (double)(starts / at_once) * at_once;
    printf("%s, %u at a time, %u MiB resident: %.0f starts/s, %.0f us each\n", program, at_once, resident, made / took * 1e9,
        took / 1e3 * at_once / made);
}

int main(int count, char **words)
{
    unsigned resident = 0, starts = 400, rounds = ROUNDS;
    const char *only = NULL;
    for (int at = 1; at < count; at += 2) {
        if (strcmp(words[at], "--only") == 0 && words[at + 1]) {
            only = words[at + 1];
            continue;
        }
        unsigned *option = strcmp(words[at], "--resident") == 0 ? &resident : strcmp(words[at], "--rounds") == 0 ? &rounds
            : strcmp(words[at], "--starts") == 0 ? &starts : NULL;
        *(option ? option : &starts) = number_in(option ? words[at + 1] : NULL, option == &starts ? AT_ONCE : option == &rounds, usage);
    }
    signal(SIGPIPE, SIG_IGN);
    char *held = calloc((size_t)resident << 20 | 1, 1);
    need(held != NULL, "memory");
    memset(held, 1, (size_t)resident << 20);
    for (unsigned at_once = 1; at_once <= (only ? 1 : AT_ONCE); at_once *= AT_ONCE) {
        if (!only || strcmp(only, "/bin/true") == 0)
            bench("/bin/true", 0, at_once, starts, rounds, resident);
        if (!only || strcmp(only, "/bin/cat") == 0)
            bench("/bin/cat", CALLOUT, at_once, starts, rounds, resident);
    }
    /* so that the memory has to be there until now */
    int lost = held[(size_t)resident << 19] != (resident ? 1 : 0);
    free(held);
    return lost;
}
