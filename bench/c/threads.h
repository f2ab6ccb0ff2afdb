/* What the benches with threads have in common. */
#ifndef THREADS_H
#define THREADS_H

#include <pthread.h>
#include <stdint.h>
#include <stdio.h>
#include <stdlib.h>
#include <string.h>
#include <time.h>

static inline uint64_t nanos(void)
{
    struct timespec now;
    clock_gettime(CLOCK_MONOTONIC, &now);
    return (uint64_t)now.tv_sec * 1000000000u + (uint64_t)now.tv_nsec;
}

/* Ends the program where something failed that the bench can't do without. */
static inline void need(int holds, const char *what)
{
    if (!holds) {
        perror(what);
        exit(1);
    }
}

/* The order of qsort(3), the least first. */
static inline int by_size(const void *a, const void *b)
{
    uint64_t x = *(const uint64_t *)a, y = *(const uint64_t *)b;
    return (x > y) - (x < y);
}

/* So many rounds are run where no number is given, and the best one counts: other work on the machine only makes it slower. */
enum { ROUNDS = 5 };

/* Runs the function in so many threads, each with its element of an array, and waits for all: the nanoseconds that it took. */
static inline uint64_t run_threads(unsigned count, void *(*function)(void *), void *first, size_t size)
{
    pthread_t threads[256];
    need(count <= sizeof threads / sizeof *threads, "threads");
    uint64_t begun = nanos();
    for (unsigned i = 0; i < count; i++)
        need(pthread_create(&threads[i], NULL, function, (char *)first + i * size) == 0, "pthread_create");
    for (unsigned i = 0; i < count; i++)
        pthread_join(threads[i], NULL);
    return nanos() - begun;
}

/* The same so many times: the nanoseconds of the best one. */
static inline uint64_t best_of(unsigned rounds, unsigned count, void *(*function)(void *), void *first, size_t size)
{
    uint64_t best = UINT64_MAX;
    for (unsigned round = 0; round < rounds; round++) {
        uint64_t took = run_threads(count, function, first, size);
        best = took < best ? took : best;
    }
    return best;
}

/* A number in a word of the command line, at least `least`; else the usage is printed. */
static inline unsigned number_in(const char *word, unsigned least, const char *usage)
{
    char *end;
    unsigned long number = word ? strtoul(word, &end, 10) : 0;
    if (!word || *end || end == word || number < least || number > 1000000000) {
        fputs(usage, stderr);
        exit(2);
    }
    return (unsigned)number;
}

#endif
