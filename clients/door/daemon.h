/* The daemon's socket. */
#ifndef DAEMON_H
#define DAEMON_H

#include <stdbool.h>

/* Where it is; false if the path is empty, or too long for an address. */
bool daemon_at(const char *path);

/*
 * A new connection, for which nobody waits; later calls may wait, as its client expects. -1 and errno: EAGAIN if more wait than the daemon lets; ENOENT, ECONNREFUSED and others if it is not there, as while
 * it is exchanged for another.
 */
int daemon_connection(void);

/* Whether others than its owner can reach the socket, by its mode and that of its folder. */
bool daemon_is_open(void);

#endif
