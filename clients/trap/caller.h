/*
 * The caller: a thread of a trapped program that waits in add_key(2), request_key(2) or keyctl(2). Each thread of the supervisor answers one at a time.
 *
 *     if (caller_begin(listener, set, &call) == 0)
 *         ... memory.h, session.h: for this caller
 *     caller_end();
 *
 * A caller may be killed at any moment, and its number given to another process. What is looked up by that number may then be the other's, so it counts only
 * if caller_lives() says so afterwards. Its memory is opened once (memory.h), and stays the caller's from then on.
 */
#ifndef CALLER_H
#define CALLER_H

#include <linux/seccomp.h>
#include <stdbool.h>
#include <stdint.h>
#include <sys/types.h>

struct set;

enum { ANY_RING = INT32_MIN }; /* or none that is known */

struct caller {
    int listener;
    uint64_t id;             /* of its call, at this listener */
    pid_t thread, process;   /* as this process numbers them */
    pid_t parent;            /* of the process */
    uint32_t uid, gid;       /* the real uid, by which the kernel's rings go, too; and the gid of its file system calls */
    bool narrow;             /* its pointers have 32 bits */
    bool links, constructs;  /* a key may be linked by this call; and one be made by a handler, which may link others */
    int32_t into;            /* the ring into which it is linked */
    struct set *set;         /* of rings, that it finds */
    int memory;              /* -1 until it is opened */
};

extern __thread struct caller caller;

/*
 * Begins with the caller of this call. 0 or a negative errno: ESRCH if it is gone, ENOMEM if there is no descriptor to look at it, EPERM if it can't be
 * seen from here, as from another process namespace.
 */
int caller_begin(int listener, struct set *set, const struct seccomp_notif *call);

void caller_end(void);

/* This thread answers no more calls. */
void caller_forget(void);

/* Whether it still waits for its answer. */
bool caller_lives(void);

/* The parent of a process, 0 if there is none that can be seen, -1 if there is no descriptor to look for it. */
pid_t parent_of(pid_t id);

#endif
