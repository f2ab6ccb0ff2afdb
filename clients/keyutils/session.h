/*
 * The one session of this process with the daemon, which all its threads share, one call at a time (turn.h). It begins with the first call.
 *
 * - Where REQKEYD_STREAMS is set, the process is one of a plain handler, and its session goes over the handler's streams (streams.h). While no authority is
 *   assumed, a request that names a key tries to assume its authority first.
 * - Else the process is a client of the socket REQKEYD_SOCKET, as /run/reqkeyd/socket, for its effective uid and gid, in the session ring REQKEYD_JOIN, or in
 *   a new one. A child has a connection of its own, in the same session ring.
 *
 * Before each call a client's connection is looked at, and made anew in the same session ring if it is not the right one any more:
 *
 * - The program has closed it, and perhaps opened another file of its number.
 * - The effective uid or gid is another. A user who may not enter the ring gets the one of REQKEYD_JOIN, or a new one.
 * - The daemon has ended it, as when it was started again. REQKEYD_JOIN is gone then: EKEYREVOKED. Without it there is a new ring.
 * - It is old: the daemon ends a connection that it has read a million times.
 * - This thread has left a call by siglongjmp(3), so that nobody has read its reply.
 *
 * A request is never sent twice. A program that runs with more rights than its caller looks at none of these variables.
 */
#ifndef SESSION_H
#define SESSION_H

#include "../c/reqkey.h"

#include <stdbool.h>

/*
 * The session for a request that names this key, or 0 for none. It is this thread's until session_end. NULL, and errno, if there is none: ENOTCONN if
 * neither variable is set, EKEYREVOKED if REQKEYD_JOIN is gone, what connect(2) says, an error of HELLO; ECONNRESET if a signal's function has called
 * meanwhile.
 */
struct reqkey *session_begin(int32_t key);

/* Gives the session back, and returns what the call answers: this result, or -1 and errno. */
long session_end(int result);

/* Whether this is a handler's session. */
bool session_is_handlers(void);

/* The client's rings; all 0 in a handler. Of the session that has begun, as all that follows but for session_renew. */
struct reqkey_rings session_rings(void);

/* The uid of the client, and that of a user of the daemon, as the caller knows them. */
uint32_t session_uid(void);
uint32_t session_shown(uint32_t user);

/* Whether a key that is found may be of this user of the daemon: any one for a handler, who is not told for whom it acts. */
bool session_is_own(uint32_t user);

/* The name of the client's session ring, as the kernel describes one. */
const char *session_ring_name(void);

/* A key is of a type that programs may read; and whether that is known, which may be forgotten. */
void session_learns(int32_t key);
bool session_has_learned(int32_t key);

/* A connection of its own for the same user, in a new session ring: it finds only what is in the user ring. reqkey_free ends it. NULL, and errno. */
struct reqkey *session_alone(void);

/* Puts this process, and what it executes, into a new session ring, and gives its serial; -1, and errno. Rings have no names here: `name` says what it may. */
long session_renew(const char *name);

/* The program itself assumes authorities from now on: this key's, or none's for 0. */
void session_assumes(int32_t key);

/* The key whose authority this process has assumed; 0 if there is none. */
int32_t session_assumed(void);

#endif
