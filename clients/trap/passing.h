/* Descriptors over a socket of the Unix domain (unix(7)). */
#ifndef PASSING_H
#define PASSING_H

#include <stddef.h>

/* Sends one; 0, or -1 and errno. */
int pass(int socket, int descriptor);

/*
 * The first listener of seccomp among those of the next message, and its text as a string; -1 if there is none, as with the end of the stream. Container
 * runtimes send others, too, which are closed.
 */
int passed(int socket, char *text, size_t room);

#endif
