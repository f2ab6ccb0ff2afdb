/*
 * One call of a trapped program, answered: its words and bytes are taken out of the program's memory (memory.h), the call of the library (../keyutils/calls.h)
 * is made for it, and what that gives is put back. Beside the library's calls there is one of its own:
 *
 *     keyctl(ANSWER_SOCKET, buffer, length)
 *
 * By it a reqkey-trap that runs under another one learns of it: the length of the path of the other's socket with its zero byte, which is written if it fits.
 * A container is not told: EOPNOTSUPP.
 */
#ifndef ANSWER_H
#define ANSWER_H

#include <linux/seccomp.h>
#include <stdint.h>

struct set;

enum { ANSWER_SOCKET = 0x74726170 };

/* What ANSWER_SOCKET tells. */
void answer_socket(const char *path);

enum { ANSWER_GOES_ON = INT32_MIN }; /* the call goes on in the kernel (kernel.h) */

/* What this call answers, from this listener, whose programs find this set: 0 or more, or a negative errno, or ANSWER_GOES_ON. */
long answer(int listener, struct set *set, const struct seccomp_notif *call);

/* The reply to a call that says so. */
static inline struct seccomp_notif_resp answer_reply(uint64_t call, long result)
{
    if (result == ANSWER_GOES_ON)
        return (struct seccomp_notif_resp){.id = call, .flags = SECCOMP_USER_NOTIF_FLAG_CONTINUE};
    return (struct seccomp_notif_resp){.id = call, .val = result < 0 ? 0 : result, .error = result < 0 ? (int32_t)result : 0};
}

#endif
