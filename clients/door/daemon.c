#include "daemon.h"

#include <errno.h>
#include <fcntl.h>
#include <libgen.h>
#include <string.h>
#include <sys/socket.h>
#include <sys/stat.h>
#include <sys/un.h>
#include <unistd.h>

static struct sockaddr_un address = {.sun_family = AF_UNIX};

bool daemon_at(const char *path)
{
    if (path[0] == 0 || strlen(path) >= sizeof address.sun_path)
        return false;
    strcpy(address.sun_path, path);
    return true;
}

int daemon_connection(void)
{
    int descriptor = socket(AF_UNIX, SOCK_STREAM | SOCK_CLOEXEC | SOCK_NONBLOCK, 0);
    if (descriptor < 0)
        return -1;
    if (connect(descriptor, (struct sockaddr *)&address, sizeof address) == 0 && fcntl(descriptor, F_SETFL, 0) == 0)
        return descriptor;
    int error = errno;
    close(descriptor);
    errno = error;
    return -1;
}

/* A group or the others need the write bit of the socket, and the search bit of its folder. */
bool daemon_is_open(void)
{
    char path[sizeof address.sun_path];
    struct stat file, folder;
    strcpy(path, address.sun_path);
    if (stat(path, &file) < 0 || stat(dirname(path), &folder) < 0)
        return false;
    return ((file.st_mode & S_IWGRP) != 0 && (folder.st_mode & S_IXGRP) != 0) || ((file.st_mode & S_IWOTH) != 0 && (folder.st_mode & S_IXOTH) != 0);
}
