/*
 * The types of keys that are left to the kernel (--kernel): calls that name one go on in the kernel, with the kernel's own rings of the caller, as if there
 * were no filter (SECCOMP_USER_NOTIF_FLAG_CONTINUE, seccomp_unotify(2)). The kernel reads the caller's words anew: a program that changes them meanwhile makes
 * the call with any type.
 */
#ifndef KERNEL_H
#define KERNEL_H

#include <stdbool.h>

/* Takes `TYPE[,TYPE]`, which has to stay; false if one has no byte, or more than 31. */
bool kernel_takes(const char *types);

/* Whether this type is among them, and whether any is. */
bool kernel_has(const char *type);
bool kernel_has_any(void);

#endif
