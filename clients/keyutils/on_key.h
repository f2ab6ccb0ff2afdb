/* What the calls have in common: the key or ring that a call names. */
#ifndef ON_KEY_H
#define ON_KEY_H

#include "calls.h"
#include "session.h"
#include "words.h"

#include <stdbool.h>

/* -1 and errno. */
int failed(int error);

/* What a serial stands for: a handler's authority and its requester's ring have none, and two numbers stand for them in its calls. */
enum { REQUESTOR_SERIAL = INT32_MAX - 7, AUTHORITY_SERIAL = INT32_MAX - 6 };
key_serial_t meant(key_serial_t id);

/*
 * The error of a call on a key if a ring stands in its place, or the authority, else 0: EOPNOTSUPP; ENOKEY for a thread or process ring, which there is not;
 * EINVAL for a group's. Of the session that has begun.
 */
int fault_of(key_serial_t key);

/* The session for a call that names this key, until session_end. NULL and errno, also for fault_of. */
struct reqkey *begin_on(key_serial_t key);

/* Whether the client's session or user ring is named. Of the session that has begun. */
bool is_session_ring(key_serial_t id);
bool is_user_ring(key_serial_t id);

/* Whether a number can't be a ring, whatever there is: 0, a group's ring, and less than the special ones. Then a call is EINVAL before all else. */
bool is_no_place(key_serial_t ringid);

/* The result of an ask that names a ring: -ENOTDIR, as in the kernel, if it was ENOKEY since a key stands in the ring's place. */
int in_ring(struct reqkey *session, int result, key_serial_t ringid);

/* Asks for what there is of a key: 0, or the error of the ask, or else of its state. The parts are there until the next ask. */
int look_up(struct reqkey *session, key_serial_t key, struct described *parts);

#endif
