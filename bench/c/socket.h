/* Frames over a stream socket of the Unix domain. */
#ifndef SOCKET_H
#define SOCKET_H

#include "message.h"
#include "threads.h"

#include <errno.h>
#include <sys/socket.h>
#include <sys/un.h>
#include <unistd.h>

static inline struct sockaddr_un address_of(const char *path)
{
    struct sockaddr_un address = {.sun_family = AF_UNIX};
    need(strlen(path) < sizeof address.sun_path, path);
    strcpy(address.sun_path, path);
    return address;
}

/* Writes all of it; false where the other side is gone. */
static inline bool write_out(int to, const uint8_t *at, size_t len)
{
    while (len) {
        ssize_t put = send(to, at, len, MSG_NOSIGNAL);
        if (put <= 0)
            return false;
        at += put;
        len -= (size_t)put;
    }
    return true;
}

/* Reads so many bytes; false where the other side is gone before. */
static inline bool read_in(int from, void *to, size_t len)
{
    for (size_t held = 0; held < len;) {
        ssize_t got = read(from, (uint8_t *)to + held, len - held);
        if (got <= 0)
            return false;
        held += (size_t)got;
    }
    return true;
}

#endif
