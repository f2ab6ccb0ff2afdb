/*
 * Session rings of the daemon, and the connections that keep them. A ring lasts as long as a connection is in it. So each ring here has one at least, and
 * calls take turns on those that there are; another one is made when none is free. A connection is made anew before the daemon ends it for its age.
 *
 * The first ring of a user is where the user's processes are that have joined none. Rings may have a name (keyctl_join_session_keyring(3)), by which other
 * processes of the same set and user join them. They end with the last process that is in them. A first ring ends when room is needed, it is empty, and no
 * living process has used it for two seconds; of those the one that was used longest ago.
 *
 * When the daemon was started again, all rings are gone; and one alone, when it was revoked, or when the daemon has ended all its connections (reqkeyd(8),
 * --idle). First rings are made anew. Who is in another one gets EKEYREVOKED.
 *
 * The daemon serves 64 connections. So there are 60 at most. A set of programs, which is alone, has 56 at most. Containers share 44, of which each has no more
 * than are left after that, and 16 are for the first one of a container: so one takes 22, and leaves 22 to be shared. A set has 32 rings at most. One more ring
 * is EDQUOT; for one more connection of a ring that has one the call waits.
 *
 * `rings_lock` is for the sets, the rings, and the processes that are in them. Calls that speak to the daemon are made without it.
 */
#ifndef RINGS_H
#define RINGS_H

#include "../c/reqkey.h"
#include "../keyutils/learned.h"

#include <stdbool.h>
#include <stdint.h>
#include <sys/types.h>

struct set;
struct ring;

struct connection {
    struct reqkey *session;
    struct ring *ring;
    struct reqkey_rings rings;
    uint32_t gid;
    int setting; /* where keys go that are requested into no ring, as the daemon has it for this connection */
    bool alone;  /* another one is made for the same call, which is counted with it */
    unsigned calls;
    struct learned learned; /* of the daemon's keys */
    struct connection *next;
};

/* The daemon's socket, for all that follows. */
void rings_at(const char *socket);

void rings_lock(void);
void rings_unlock(void);

/* What a call has done with its ring: whose it was, in which rings keys may be by it, and whether its last request got no reply. */
struct use {
    pid_t process;
    bool fills_session, fills_user, broken;
};

/* A connection of this user in a new session ring, without a place here; NULL and errno. */
struct reqkey *ring_alone(uint32_t number, uint32_t gid);

/* Clears the user ring of a user; whether that was done. */
bool ring_clears(uint32_t number);

/*
 * A ring that is held until ring_let_go: the first one of this user in a set; the one by a name, which may be new; or a new one for NULL. NULL and errno.
 */
struct ring *ring_first(struct set *set, uint32_t uid, uint32_t gid);
struct ring *ring_named(struct set *set, uint32_t uid, uint32_t gid, const char *name);

/* The same of a thread that has the rings, for a ring that is known: EKEYREVOKED if it is gone. */
bool ring_hold(struct ring *ring);
void ring_let_go(struct ring *ring);

uint32_t ring_serial(const struct ring *ring);

/* NULL for none, and "" for a first one. */
const char *ring_name(const struct ring *ring);

bool ring_is_of(const struct ring *ring, uint32_t uid);

/* The ring is gone, for all that are in it. Of one that is held. */
void ring_revoke(struct ring *ring);

/* Holds a ring, and lets go of it, of a thread that has the rings: for a process that is in it. */
void ring_enter(struct ring *ring);
void ring_leave(struct ring *ring);

/* A connection in a ring that is held; NULL and errno. It is given back with the hold on its ring. */
struct connection *connection_take(struct ring *ring, uint32_t gid);
void connection_give(struct connection *connection, const struct use *use);

/* A connection of the same user in a new session ring, which has ended when this one is given back; NULL and errno, EDQUOT if there is no room for it. */
struct reqkey *connection_alone(struct connection *connection);

/* Ends the rings of a set; of a thread that has the rings. Those that are held end when they are let go of. */
void rings_forget(const struct set *set);

#endif
