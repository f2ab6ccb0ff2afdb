/* Bytes from one connection to another. Nothing is read while something is kept that the other one did not take: so a flow holds at most PIECE bytes. */
#ifndef FLOW_H
#define FLOW_H

#include <stdbool.h>
#include <stddef.h>
#include <sys/socket.h>

enum { PIECE = 65536 };

/* How all is sent, and read (MSG_DONTWAIT): no call waits, whether the connection may or not. That of the daemon is its client's, too (fcntl(2), O_NONBLOCK). */
enum { NOW = MSG_DONTWAIT | MSG_NOSIGNAL };

struct flow {
    unsigned char *kept; /* bytes that are to be written, or NULL */
    size_t at, end;      /* which of them */
    bool ended;          /* all was read */
};

/* Whether it is to be read from, and written to. */
bool flow_reads(const struct flow *flow);
bool flow_writes(const struct flow *flow);

/*
 * Reads once, and writes what can be; hands the end of what is read on. Of a flow that reads. 1 if bytes came, 0 if none did, and -1 if the connection that is
 * read, or the other one, is broken.
 */
int flow_read(struct flow *flow, int from, int to);

/* Writes what is kept. Of a flow that writes. False if the connection is broken. */
bool flow_write(struct flow *flow, int to);

void flow_free(struct flow *flow);

#endif
