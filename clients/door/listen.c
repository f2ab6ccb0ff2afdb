#include "listen.h"

#include <errno.h>
#include <fcntl.h>
#include <stdlib.h>
#include <string.h>
#include <sys/socket.h>
#include <sys/stat.h>
#include <sys/un.h>
#include <unistd.h>

enum { WAITING = 4096, FIRST = 3 /* SD_LISTEN_FDS_START */ };

static struct {
    struct sockaddr_un address;
    dev_t device;
    ino_t inode; /* 0 while there is none */
} made;

/* Removes a socket that nobody listens at; false if somebody does, or it is another file. */
static bool is_free(const struct sockaddr_un *address)
{
    struct stat file;
    if (lstat(address->sun_path, &file) < 0)
        return errno == ENOENT;
    int probe = S_ISSOCK(file.st_mode) ? socket(AF_UNIX, SOCK_STREAM | SOCK_CLOEXEC | SOCK_NONBLOCK, 0) : -1;
    bool dead = probe >= 0 && connect(probe, (const struct sockaddr *)address, sizeof *address) < 0 && errno == ECONNREFUSED;
    if (probe >= 0)
        close(probe);
    errno = EADDRINUSE;
    return dead && unlink(address->sun_path) == 0;
}

/* Bound, and then open for everyone, before it is listened at. */
static int bound(const struct sockaddr_un *address)
{
    struct stat file;
    int server = socket(AF_UNIX, SOCK_STREAM | SOCK_CLOEXEC | SOCK_NONBLOCK, 0);
    if (server < 0 || bind(server, (const struct sockaddr *)address, sizeof *address) < 0)
        return -1;
    if (lstat(address->sun_path, &file) == 0) {
        made.device = file.st_dev;
        made.inode = file.st_ino;
    }
    return chmod(address->sun_path, 0666) == 0 && listen(server, WAITING) == 0 ? server : -1;
}

int listen_at(const char *path)
{
    made.address.sun_family = AF_UNIX;
    if (path[0] == 0) { /* which would be a name without a file (unix(7), "abstract") */
        errno = ENOENT;
        return -1;
    }
    if (strlen(path) >= sizeof made.address.sun_path) {
        errno = ENAMETOOLONG;
        return -1;
    }
    strcpy(made.address.sun_path, path);
    return is_free(&made.address) ? bound(&made.address) : -1;
}

void listen_end(void)
{
    struct stat file;
    if (made.inode != 0 && lstat(made.address.sun_path, &file) == 0 && file.st_dev == made.device && file.st_ino == made.inode)
        unlink(made.address.sun_path);
}

/* The value of an option of this socket, or -1. */
static int option(int socket, int name)
{
    int value = -1;
    socklen_t length = sizeof value;
    return getsockopt(socket, SOL_SOCKET, name, &value, &length) == 0 ? value : -1;
}

static bool is_listened_at(int socket)
{
    return option(socket, SO_DOMAIN) == AF_UNIX && option(socket, SO_TYPE) == SOCK_STREAM && option(socket, SO_ACCEPTCONN) == 1;
}

int listen_handed(int sockets[SOCKETS])
{
    const char *process = getenv("LISTEN_PID"), *number = getenv("LISTEN_FDS");
    long count = process != NULL && number != NULL && strtol(process, NULL, 10) == getpid() ? strtol(number, NULL, 10) : 0;
    unsetenv("LISTEN_PID");
    unsetenv("LISTEN_FDS");
    unsetenv("LISTEN_FDNAMES");
    if (count < 0 || count > SOCKETS)
        return -1;
    for (int i = 0; i < count; i++) {
        sockets[i] = FIRST + i;
        if (!is_listened_at(sockets[i]) || fcntl(sockets[i], F_SETFD, FD_CLOEXEC) < 0 || fcntl(sockets[i], F_SETFL, O_NONBLOCK) < 0)
            return -1;
    }
    return (int)count;
}
