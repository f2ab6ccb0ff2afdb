#include "peer.h"

#include <fcntl.h>
#include <stdio.h>
#include <string.h>
#include <sys/socket.h>
#include <unistd.h>

enum { GROUPS = 65536 /* NGROUPS_MAX */, SHOWN = 128 };

bool peer_of(int connection, struct peer *peer)
{
    struct ucred who;
    socklen_t length = sizeof who;
    if (getsockopt(connection, SOL_SOCKET, SO_PEERCRED, &who, &length) < 0)
        return false;
    *peer = (struct peer){who.pid, who.uid, who.gid};
    return true;
}

bool peer_has_group(int connection, const struct peer *peer, gid_t group)
{
    static gid_t groups[GROUPS];
    socklen_t length = sizeof groups;
    if (peer->gid == group)
        return true;
    if (getsockopt(connection, SOL_SOCKET, SO_PEERGROUPS, groups, &length) < 0)
        return false;
    for (size_t i = 0; i < length / sizeof *groups; i++)
        if (groups[i] == group)
            return true;
    return false;
}

/* What a file of a process' folder in /proc says, or where it leads to; 0 if that can't be seen. */
static ssize_t seen(pid_t process, char text[SHOWN])
{
    char path[64];
    snprintf(path, sizeof path, "/proc/%d/exe", (int)process);
    ssize_t length = readlink(path, text, SHOWN);
    if (length > 0)
        return length;
    snprintf(path, sizeof path, "/proc/%d/comm", (int)process);
    int file = open(path, O_RDONLY | O_CLOEXEC);
    length = file < 0 ? 0 : read(file, text, SHOWN);
    if (file >= 0)
        close(file);
    return length > 0 && text[length - 1] == '\n' ? length - 1 : length;
}

const char *peer_program(const struct peer *peer, char text[PROGRAM])
{
    char name[SHOWN], *at = text;
    ssize_t length = peer->pid > 0 ? seen(peer->pid, name) : 0;
    if (length <= 0)
        return strcpy(text, "?");
    *at++ = '"';
    for (ssize_t i = 0; i < length; i++) {
        unsigned char byte = (unsigned char)name[i];
        if (byte < ' ' || byte > '~' || byte == '"' || byte == '\\')
            at += sprintf(at, "\\%03o", byte);
        else
            *at++ = (char)byte;
    }
    strcpy(at, "\"");
    return text;
}
