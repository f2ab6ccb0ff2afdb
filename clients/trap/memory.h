/*
 * The caller's memory (caller.h). The program is not trusted: its pointers may lead nowhere, its strings may have no end, and its other threads may write while
 * this reads. So every byte is copied once, and looked at here.
 *
 * Each returns 0 or a negative errno: EFAULT where the program itself may not read or write, ESRCH if the caller is gone. EPERM says that this process may not
 * look into that one: as ptrace(2) has it, if it is not dumpable or another user's.
 */
#ifndef MEMORY_H
#define MEMORY_H

#include <stddef.h>
#include <stdint.h>

int memory_read(void *to, uint64_t from, size_t length);

/* Writes nothing if the caller no longer waits. */
int memory_write(uint64_t to, const void *from, size_t length);

/* A string with its zero byte; EINVAL if it has none among the first `room` bytes, as the kernel says. */
int memory_text(char *to, uint64_t from, size_t room);

#endif
