/*
 * Which session ring each process is in, and where its keys go that it requests into no ring: its place. A process has that of its parent when it was started,
 * and one that nobody has put elsewhere is in its user's first ring.
 *
 * What is in a place is marked, by a random number for each: the soft limit RLIMIT_RTTIME of a process (getrlimit(2)). fork(2) and execve(2) hand it down,
 * exactly as the kernel does a session ring, and it limits nobody: it says how many microseconds a real-time task may run without a pause, and these are above
 * 100,000 years. Most programs never join a ring: then nothing is marked of their set, and nobody is looked at.
 *
 * A process that joins another ring leaves those where they are that it has started before: if it was not marked itself, they are marked first.
 *
 * A program may set that limit by itself; or it may not be set from here, without CAP_SYS_RESOURCE for another user's process. Then its place goes by its
 * ancestors: it is that of the nearest one of which it is known. This is told once for each set.
 *
 * A place lasts as long as a process is in it. One of these is kept with its pidfd, so that its number is never taken for another process'. When it ends,
 * another one with its mark is looked for.
 *
 * All but processes_forget: of a thread that has not the rings (rings.h); for the caller (caller.h), if not said otherwise.
 */
#ifndef PROCESSES_H
#define PROCESSES_H

#include <stdbool.h>
#include <sys/types.h>

struct ring;
struct set;

/*
 * The ring of the caller's process, held, and its setting. The ring is NULL for the first one of its user, also where the process is in another user's. False
 * and errno: EKEYREVOKED if the ring is gone, ENOMEM.
 */
bool process_find(struct ring **ring, int *setting);

/* The ring that the caller's process has joined, held, whoever's it is; NULL if there is none any more. */
struct ring *process_ring(void);

/* Puts the caller's process into a ring; false if out of memory, or if the caller is gone. The ring that it leaves ends if nobody else is in it. */
bool process_join(struct ring *ring);

/* Keeps this setting for the caller's process; false as above. */
bool process_set(int setting);

/* Ends the places of all sets in which no process is any more. */
void processes_reap(void);

/* Forgets the places of a set; of a thread that has the rings. */
void processes_forget(const struct set *set);

/* Where it is told, in these words, that a process can't be marked: by default on standard error. */
#define PROCESSES_LIMITED "process %d can't be marked by RLIMIT_RTTIME: its session ring goes by its ancestors"
extern void (*processes_limited)(pid_t process);

#endif
