/* Who has connected, as the kernel says (unix(7), SO_PEERCRED, SO_PEERGROUPS): the process that called connect(2), as it was then. */
#ifndef PEER_H
#define PEER_H

#include <stdbool.h>
#include <stddef.h>
#include <sys/types.h>

struct peer {
    pid_t pid; /* 0 if it is in no process namespace that is seen from here */
    uid_t uid;
    gid_t gid;
};

/* The peer of a connection; false if the kernel does not say. */
bool peer_of(int connection, struct peer *peer);

/* Whether a group is the peer's: the effective one, or one of the others. */
bool peer_has_group(int connection, const struct peer *peer, gid_t group);

enum { PROGRAM = 4 * 128 + 3 }; /* room for the name of a program */

/*
 * The program of a peer in quotes: the path of its file, if the door may see that; else the name by which it goes (proc(5), comm), which it can choose. A byte
 * outside printable ASCII, a quote and a backslash are octal. "?" if it has ended.
 */
const char *peer_program(const struct peer *peer, char text[PROGRAM]);

#endif
