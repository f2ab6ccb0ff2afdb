/* The one thread of the door: it waits for something to happen at any descriptor (epoll(7)), and nobody is waited for alone. */
#ifndef LOOP_H
#define LOOP_H

#include <stdbool.h>
#include <stdint.h>

struct client;

/* A descriptor, and who is told of it. */
struct end {
    int descriptor; /* -1 if it is closed */
    bool watched;
    uint32_t events;
    struct client *client; /* NULL for a socket that is listened at */
};

/* What is looked for at a descriptor from now on; EPOLLHUP and EPOLLERR always are. False if the kernel has no memory for it. */
bool watch(struct end *end, uint32_t events);

/* Nothing is looked for any more, not even these two. */
void unwatch(struct end *end);

/* Closes it, unless it is closed. */
void end_close(struct end *end);

/* Begins to listen at these sockets, of which there are at most 16; false and errno if that can't be. */
bool loop_begin(const int *sockets, unsigned count);

/* Serves those who connect, until SIGTERM or SIGINT; then all is closed. */
void loop_run(void);

#endif
