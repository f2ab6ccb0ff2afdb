/*
 * A set of rings: those that the programs of one container, or of one reqkey-trap, find. What a program gets depends on its set and its uid.
 *
 * - The set of a program that reqkey-trap starts acts for each uid as itself. So its user rings are those of every other client of the daemon.
 * - The set of a container acts for each of its uids as another user of the daemon, whom nobody else acts for: the user's `number`, from 3,000,000,000 on.
 *   So two containers have nothing in common, though root is in both. A handler's %u is that number.
 *
 * A user is one of the set as long as it has a ring, or, in a container, a key may be in its user ring. A set has 64 at most. Then its number is another
 * user's: at once if nothing was ever in its user ring, else after the end of the set, when that ring has been cleared and 512 numbers have been used.
 *
 * The daemon keeps a user ring for each user as long as it runs, 1,024 rings in each of its four halls. So containers share 2,048 numbers, and programs act
 * for 256 uids of each hall at most. One more is EDQUOT.
 *
 * All but set_begin, set_end and set_is_container: of a thread that has the rings (rings.h).
 */
#ifndef SETS_H
#define SETS_H

#include <pthread.h>
#include <stdbool.h>
#include <stdint.h>

enum { SET_USERS = 64 };

struct user {
    uint32_t uid, number;
    unsigned rings; /* that it has */
    bool filled;    /* a key may be in its user ring */
    bool unclear;   /* its user ring is to be cleared before it is used */
    struct user *next;
};

struct set {
    char *container; /* or NULL: all act as themselves */
    unsigned listeners, count;
    struct user *users[SET_USERS]; /* lists, by the uid */
    unsigned places;               /* of its processes (processes.h) */
    bool limited;                  /* it was said that one of its programs has set a limit by itself (processes.h) */
    pthread_mutex_t making;        /* of its rings: one at a time, so that each name is made once */
    struct set *next;
};

/* The set of programs that act as themselves, for NULL; else that of the container by this name, which may have begun before. NULL if out of memory. */
struct set *set_begin(const char *container);

/* Ends one of its listeners. With the last one all that the set has is over. */
void set_end(struct set *set);

bool set_is_container(const struct set *set);

/* The user for this uid, who has one ring more; NULL and EDQUOT or ENOMEM. */
struct user *set_enters(struct set *set, uint32_t uid);

/* The daemon has a user ring for this user now. */
void set_has_acted(const struct set *set, const struct user *user);

/* The user has one ring less. */
void set_leaves(struct set *set, struct user *user);

/* The uid for which a user of the daemon stands. */
uint32_t set_uid(const struct set *set, uint32_t number);

/* The daemon is another one, which has no user rings yet. */
void sets_begin_anew(void);

#endif
