/*
 * The supervisor of containers. Their runtime, as crun, runc or podman, puts them under a filter by a profile of seccomp, and sends its listener to the socket
 * that the profile names (`listenerPath`), with the container's state. Each container has a set of rings of its own, by its name: what is started in it later
 * (`podman exec`) finds it again. What comes without a name is a container by itself.
 *
 * Whoever may write to the socket may use the daemon, as any user whom it does not give to containers itself. So the socket is its owner's alone.
 */
#ifndef LISTEN_H
#define LISTEN_H

/* Listens at this path, and never returns but for a fault: 1. A socket that nobody listens at any more is replaced. */
int listen_at(const char *path);

#endif
