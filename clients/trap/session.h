/* What a trapped program's calls need beyond the library's session.h, which session.c answers here for the caller (caller.h). */
#ifndef TRAP_SESSION_H
#define TRAP_SESSION_H

#include <stdbool.h>
#include <stdint.h>

/* Has this connection, and the caller's process, this setting from now on; false if out of memory. Of a session that has begun. */
bool session_setting(int setting);

/*
 * Revokes the session ring of the caller's process, if this is its serial, or -3: it is emptied, and whoever is in it gets EKEYREVOKED until it joins another
 * one; a first ring is made anew, and is empty. 1 if that was done, 0 if this is another key, -1 and errno.
 */
int session_revoke(int32_t id);

#endif
