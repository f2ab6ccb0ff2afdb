/* Runs a program and says on standard error what it took: processor time in microseconds, in it and in the system, and peak memory in KiB.
 *
 * usage: measure PROGRAM WORD ..
 *
 * A peak that is asked of the system counts what the parent held before the program was there. This parent holds next to nothing. */
#include <spawn.h>
#include <stdio.h>
#include <sys/resource.h>
#include <sys/wait.h>

extern char **environ;

static long long micros(struct timeval time)
{
    return time.tv_sec * 1000000LL + time.tv_usec;
}

int main(int count, char **words)
{
    pid_t child;
    int status;
    struct rusage used;
    if (count < 2 || posix_spawnp(&child, words[1], NULL, NULL, words + 1, environ) != 0 || wait4(child, &status, 0, &used) < 0) {
        fputs("usage: measure PROGRAM WORD ..\n", stderr);
        return 2;
    }
    fprintf(stderr, "%lld %lld %ld\n", micros(used.ru_utime), micros(used.ru_stime), used.ru_maxrss);
    return WIFEXITED(status) ? WEXITSTATUS(status) : 128 + WTERMSIG(status);
}
