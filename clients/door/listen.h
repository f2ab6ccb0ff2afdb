/* The sockets at which the door listens. */
#ifndef LISTEN_H
#define LISTEN_H

#include <stdbool.h>

enum { SOCKETS = 16 };

/* Listens at a path, for everyone, and gives the socket; -1 and errno. A socket there that nobody listens at is replaced. */
int listen_at(const char *path);

/* Removes the file that listen_at has made, unless another one is there by now. */
void listen_end(void);

/*
 * The sockets that systemd has handed to this process (sd_listen_fds(3)), and how many; 0 if none, -1 if what it has handed is no stream socket of the Unix
 * domain that is listened at, or more than there is room for.
 */
int listen_handed(int sockets[SOCKETS]);

#endif
