#include "caller.h"

#include "../keyutils/calls.h"
#include "calls_of.h"

#include <errno.h>
#include <fcntl.h>
#include <stdio.h>
#include <string.h>
#include <sys/ioctl.h>
#include <sys/syscall.h>
#include <unistd.h>

#ifndef ASKS_PIDFD /* a test builds it without */
#define ASKS_PIDFD 1
#endif

__thread struct caller caller = {.memory = -1};

/* The beginning of a file of /proc, as a string; its length, or -1. */
static ssize_t read_file(const char *path, char *text, size_t room)
{
    int file = open(path, O_RDONLY | O_CLOEXEC);
    if (file < 0)
        return -1;
    ssize_t length = read(file, text, room - 1);
    close(file);
    text[length < 0 ? 0 : length] = 0;
    return length;
}

/* The fields of /proc/THREAD/status that are wanted. A name can't stand for one: the kernel escapes its line ends. */
static bool read_status(const char *text)
{
    const char *group = strstr(text, "\nTgid:"), *parent = strstr(text, "\nPPid:"), *uid = strstr(text, "\nUid:"), *gid = strstr(text, "\nGid:");
    return group != NULL && parent != NULL && uid != NULL && gid != NULL && sscanf(group, "\nTgid: %d", &caller.process) == 1 &&
           sscanf(parent, "\nPPid: %d", &caller.parent) == 1 && sscanf(uid, "\nUid: %u", &caller.uid) == 1 &&
           sscanf(gid, "\nGid: %*u %*u %*u %u", &caller.gid) == 1;
}

/* What Linux 6.13 says of a thread by its pidfd, in a fifth of the time that a file of /proc takes. */
struct info {
    uint64_t mask, control_group;
    uint32_t thread, process, parent, uids[2], effective[2], saved[2], file_system[2], spare;
};

#define GET_INFO _IOWR(0xFF, 11, struct info)
#define OF_THREAD O_EXCL /* pidfd_open(2) */

enum { HAS_PROCESS = 1, HAS_USER = 2 };

/* The pidfd of the last caller. Once that thread was collected it says nothing more, so it is never another one's of the same number. */
static __thread struct {
    pid_t thread;
    int pidfd;
} last = {0, -1};

static bool asks(struct info *info)
{
    *info = (struct info){.mask = HAS_PROCESS | HAS_USER};
    return last.pidfd >= 0 && ioctl(last.pidfd, GET_INFO, info) == 0 && (info->mask & (HAS_PROCESS | HAS_USER)) == (HAS_PROCESS | HAS_USER);
}

void caller_forget(void)
{
    if (last.pidfd >= 0)
        close(last.pidfd);
    last.pidfd = -1;
}

static bool read_info(void)
{
    struct info info;
    bool said = last.thread == caller.thread && asks(&info);
    if (!said && ASKS_PIDFD) {
        caller_forget();
        last.thread = caller.thread;
        last.pidfd = (int)syscall(SYS_pidfd_open, caller.thread, OF_THREAD);
        said = asks(&info);
    }
    if (!said)
        return false;
    caller.process = (pid_t)info.process;
    caller.parent = (pid_t)info.parent;
    caller.uid = info.uids[0];
    caller.gid = info.file_system[1];
    return true;
}

/* The same by /proc. */
static bool read_proc(void)
{
    char path[64], text[4096];
    snprintf(path, sizeof path, "/proc/%d/status", caller.thread);
    return read_file(path, text, sizeof text) > 0 && read_status(text);
}

/* Whether a command of keyctl(2) may link a key, and into which ring; 0 is none. Any that is not known here may. */
static int32_t linked_into(const __u64 *a)
{
    switch ((uint32_t)a[0]) {
    case KEYCTL_LINK:
        return (int32_t)a[2];
    case KEYCTL_SEARCH:
        return (int32_t)a[4];
    case KEYCTL_GET_KEYRING_ID:
    case KEYCTL_JOIN_SESSION_KEYRING:
    case KEYCTL_REVOKE:
    case KEYCTL_DESCRIBE:
    case KEYCTL_CLEAR:
    case KEYCTL_UNLINK:
    case KEYCTL_READ:
    case KEYCTL_SET_REQKEY_KEYRING:
    case KEYCTL_SET_TIMEOUT:
    case KEYCTL_ASSUME_AUTHORITY:
    case KEYCTL_CAPABILITIES:
        return 0;
    default:
        return ANY_RING;
    }
}

/* What the call may link. A request that makes a key has its handler, which may link others into any ring of the caller. */
static void find_links(const struct seccomp_notif *call)
{
    const __u64 *a = call->data.args;
    enum call kind = call_of(call->data.arch, (uint32_t)call->data.nr);
    caller.constructs = kind == CALL_REQUEST_KEY && a[2] != 0;
    caller.into = kind == CALL_ADD_KEY ? (int32_t)a[4] : kind == CALL_REQUEST_KEY ? (int32_t)a[3] : linked_into(a);
    caller.links = caller.constructs || caller.into != 0;
}

int caller_begin(int listener, struct set *set, const struct seccomp_notif *call)
{
    caller = (struct caller){.listener = listener, .id = call->id, .thread = (pid_t)call->pid, .set = set, .memory = -1};
    caller.narrow = is_narrow(call->data.arch);
    find_links(call);
    if (call->pid == 0)
        return -EPERM;
    bool seen = read_info() || read_proc();
    int error = errno;
    if (!caller_lives())
        return -ESRCH;
    return seen ? 0 : error == EMFILE || error == ENFILE ? -ENOMEM : -EPERM;
}

void caller_end(void)
{
    if (caller.memory >= 0)
        close(caller.memory);
    caller.memory = -1;
}

bool caller_lives(void)
{
    return ioctl(caller.listener, SECCOMP_IOCTL_NOTIF_ID_VALID, &caller.id) == 0;
}

pid_t parent_of(pid_t id)
{
    char path[64], text[1024];
    int parent = 0;
    snprintf(path, sizeof path, "/proc/%d/stat", id);
    if (read_file(path, text, sizeof text) <= 0)
        return errno == EMFILE || errno == ENFILE || errno == ENOMEM ? -1 : 0;
    const char *end = strrchr(text, ')'); /* of the name, which may have any bytes */
    return end != NULL && sscanf(end + 1, " %*c %d", &parent) == 1 ? parent : 0;
}
