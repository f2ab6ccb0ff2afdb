#include "passing.h"

#include <errno.h>
#include <linux/seccomp.h>
#include <stdint.h>
#include <string.h>
#include <sys/ioctl.h>
#include <sys/socket.h>
#include <sys/types.h>
#include <unistd.h>

enum { MOST = 16 }; /* descriptors of a message */

int pass(int socket, int descriptor)
{
    _Alignas(struct cmsghdr) char room[CMSG_SPACE(sizeof(int))] = {0};
    char one = 'x';
    struct iovec part = {&one, 1};
    struct msghdr message = {.msg_iov = &part, .msg_iovlen = 1, .msg_control = room, .msg_controllen = sizeof room};
    struct cmsghdr *head = CMSG_FIRSTHDR(&message);
    *head = (struct cmsghdr){.cmsg_len = CMSG_LEN(sizeof(int)), .cmsg_level = SOL_SOCKET, .cmsg_type = SCM_RIGHTS};
    memcpy(CMSG_DATA(head), &descriptor, sizeof(int));
    return sendmsg(socket, &message, MSG_NOSIGNAL) == 1 ? 0 : -1;
}

/* A listener knows no call 0, and says so; another file knows no such request. */
static int is_listener(int descriptor)
{
    uint64_t none = 0;
    return ioctl(descriptor, SECCOMP_IOCTL_NOTIF_ID_VALID, &none) < 0 && errno == ENOENT;
}

/* The first listener of these, the others closed. */
static int chosen(const unsigned char *data, size_t count)
{
    int found = -1;
    for (size_t i = 0; i < count; i++) {
        int descriptor;
        memcpy(&descriptor, data + i * sizeof descriptor, sizeof descriptor);
        if (found < 0 && is_listener(descriptor))
            found = descriptor;
        else
            close(descriptor);
    }
    return found;
}

int passed(int socket, char *text, size_t room)
{
    _Alignas(struct cmsghdr) char control[CMSG_SPACE(MOST * sizeof(int))];
    struct iovec part = {text, room - 1};
    struct msghdr message = {.msg_iov = &part, .msg_iovlen = 1, .msg_control = control, .msg_controllen = sizeof control};
    ssize_t length;
    do
        length = recvmsg(socket, &message, MSG_CMSG_CLOEXEC);
    while (length < 0 && errno == EINTR);
    text[length < 0 ? 0 : length] = 0;
    int found = -1;
    for (struct cmsghdr *head = length < 0 ? NULL : CMSG_FIRSTHDR(&message); head != NULL; head = CMSG_NXTHDR(&message, head))
        if (head->cmsg_level == SOL_SOCKET && head->cmsg_type == SCM_RIGHTS && found < 0)
            found = chosen(CMSG_DATA(head), (head->cmsg_len - CMSG_LEN(0)) / sizeof(int));
    return found;
}
