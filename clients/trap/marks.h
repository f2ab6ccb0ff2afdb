/*
 * Marks of processes: the soft limit RLIMIT_RTTIME (getrlimit(2)), which what they start has, too. A limit that is none of these numbers is the kernel's or
 * a program's own; one that was never set has no end.
 *
 * A process is named by its number, which may be another one's by now: whoever calls these looks at that.
 */
#ifndef MARKS_H
#define MARKS_H

#include <stdbool.h>
#include <stddef.h>
#include <stdint.h>
#include <sys/types.h>

/* A random number that no place has, and nobody guesses. */
uint64_t mark_drawn(void);

/* The limit of a process; 0 if it can't be seen. */
uint64_t mark_of(pid_t id);

/* Marks a process whose limit this is, if that is none or a mark, and may be changed from here; else false. */
bool mark_set(pid_t id, uint64_t limit, uint64_t mark);

/* Marks the descendants of a process that are not marked, and not those below others that are. False if out of memory or descriptors. */
bool marks_settle(pid_t of, uint64_t mark);

/* A living process with a mark: whether there is any, its number, and its pidfd, or -1 if there is no descriptor for it. */
struct found {
    bool any;
    pid_t id;
    int pidfd;
};

/* Looks for one with each of these marks among all processes that can be seen, if it counts. */
void marks_find(const uint64_t *marks, size_t count, bool (*counts)(pid_t id, uint64_t mark), struct found *found);

#endif
