#include "filter.h"

#include "calls_of.h"

#include <errno.h>
#include <linux/filter.h>
#include <linux/seccomp.h>
#include <stddef.h>
#include <sys/prctl.h>
#include <sys/syscall.h>
#include <unistd.h>

#ifndef SECCOMP_FILTER_FLAG_WAIT_KILLABLE_RECV
#define SECCOMP_FILTER_FLAG_WAIT_KILLABLE_RECV (1UL << 5)
#endif

static int filtered(unsigned long flags)
{
    struct sock_filter words[] = {
        BPF_STMT(BPF_LD | BPF_W | BPF_ABS, offsetof(struct seccomp_data, arch)),
        BPF_JUMP(BPF_JMP | BPF_JEQ | BPF_K, NARROW_ARCHITECTURE, 5, 0),
        BPF_STMT(BPF_LD | BPF_W | BPF_ABS, offsetof(struct seccomp_data, nr)),
        BPF_STMT(BPF_ALU | BPF_AND | BPF_K, CALL_MASK),
        BPF_JUMP(BPF_JMP | BPF_JGE | BPF_K, WIDE_CALLS, 0, 1),
        BPF_JUMP(BPF_JMP | BPF_JGT | BPF_K, WIDE_CALLS + 2, 0, 4),
        BPF_STMT(BPF_RET | BPF_K, SECCOMP_RET_ALLOW),
        BPF_STMT(BPF_LD | BPF_W | BPF_ABS, offsetof(struct seccomp_data, nr)),
        BPF_JUMP(BPF_JMP | BPF_JGE | BPF_K, NARROW_CALLS, 0, 2),
        BPF_JUMP(BPF_JMP | BPF_JGT | BPF_K, NARROW_CALLS + 2, 1, 0),
        BPF_STMT(BPF_RET | BPF_K, SECCOMP_RET_USER_NOTIF),
        BPF_STMT(BPF_RET | BPF_K, SECCOMP_RET_ALLOW),
    };
    struct sock_fprog program = {sizeof words / sizeof *words, words};
    return (int)syscall(SYS_seccomp, SECCOMP_SET_MODE_FILTER, flags, &program);
}

/* With the flag only a signal that kills ends a wait, as in the kernel's own calls. Without it, before Linux 5.19, one that is caught ends it with EINTR. */
static int filtered_as_may_be(void)
{
    int listener = filtered(SECCOMP_FILTER_FLAG_NEW_LISTENER | SECCOMP_FILTER_FLAG_WAIT_KILLABLE_RECV);
    return listener >= 0 || errno != EINVAL ? listener : filtered(SECCOMP_FILTER_FLAG_NEW_LISTENER);
}

int filter_begin(void)
{
    int listener = filtered_as_may_be();
    if (listener >= 0 || errno != EACCES || prctl(PR_SET_NO_NEW_PRIVS, 1, 0, 0, 0) < 0)
        return listener;
    return filtered_as_may_be();
}
