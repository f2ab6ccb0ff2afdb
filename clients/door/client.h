/*
 * One who has connected, from the first byte to the end.
 *
 *     GREETS   its HELLO is read, up to its last byte
 *     WAITS    the daemon is not there, or takes no more at the moment
 *     ASKED    the daemon has got the HELLO, and is to answer it
 *     SERVED   it has the daemon's connection; if it asks here all the same, what it sends and gets is relayed
 *     ENDS     it has gone, and the daemon is not done with its connection
 *
 * A HELLO that is refused may be followed by another one.
 */
#ifndef CLIENT_H
#define CLIENT_H

#include "loop.h"

#include <stdbool.h>
#include <stdint.h>

/* How many connections of one uid the daemon has at most, and whether root may act for any user, with any number of connections. */
struct bounds {
    unsigned per_user;
    bool root_any;
};

extern struct bounds bounds;

/* One who has connected; the descriptor is the client's from now on. */
void client_comes(int descriptor);

/* Something has happened at one of its descriptors. */
void client_happens(struct end *end, uint32_t events);

/* Frees those that have ended. Not while anybody may still be told of one. */
void clients_bury(void);

/* Whether somebody waits for a moment; and a moment has come. */
bool clients_wait(void);
void clients_tick(void);

/* Ends all. What the daemon was asked by those who have its connection goes on. */
void clients_end(void);

#endif
