#include "memory.h"

#include "caller.h"
#include "mappings.h"

#include <errno.h>
#include <fcntl.h>
#include <stdbool.h>
#include <stdio.h>
#include <string.h>
#include <sys/uio.h>
#include <unistd.h>

enum { PAGE = 4096 }; /* or a part of one */

/* Opens the memory. The caller has to live after that: from then on the descriptor is that memory's, whoever gets its number. */
static int opened(void)
{
    char path[64];
    if (caller.memory >= 0)
        return 0;
    snprintf(path, sizeof path, "/proc/%d/mem", caller.thread);
    caller.memory = open(path, O_RDWR | O_CLOEXEC);
    int error = errno;
    if (!caller_lives())
        return -ESRCH;
    return caller.memory >= 0 ? 0 : error == EACCES ? -EPERM : -error;
}

/* Addresses of the upper half are the kernel's; an offset of a file is no more than that. */
static bool is_low(uint64_t address, size_t length)
{
    return address <= INT64_MAX - length;
}

/* Without a descriptor, and as the program itself may read; what was read counts if the caller lives afterwards. */
static ssize_t read_across(void *to, uint64_t from, size_t length)
{
    struct iovec here = {to, length}, there = {(void *)(uintptr_t)from, length};
    return process_vm_readv(caller.thread, &here, 1, &there, 1, 0);
}

/* The same by its memory, on a kernel that is built without that call. */
static int read_opened(void *to, uint64_t from, size_t length)
{
    int fault = opened();
    if (fault < 0)
        return fault;
    return pread(caller.memory, to, length, (off_t)from) == (ssize_t)length ? 0 : -EFAULT;
}

int memory_read(void *to, uint64_t from, size_t length)
{
    if (length == 0)
        return 0;
    if (!is_low(from, length))
        return -EFAULT;
    ssize_t done = read_across(to, from, length);
    int error = done < 0 ? errno : EFAULT;
    if (done < 0 && error == ENOSYS)
        return read_opened(to, from, length);
    if (!caller_lives())
        return -ESRCH;
    return done == (ssize_t)length ? 0 : -error;
}

int memory_write(uint64_t to, const void *from, size_t length)
{
    if (length == 0)
        return 0;
    if (!is_low(to, length))
        return -EFAULT;
    int fault = opened();
    if (fault < 0)
        return fault;
    bool may = mappings_may_be_written(to, length);
    if (!caller_lives())
        return -ESRCH;
    return may && pwrite(caller.memory, from, length, (off_t)to) == (ssize_t)length ? 0 : -EFAULT;
}

/* Page by page, since what lies behind it may not be there. */
int memory_text(char *to, uint64_t from, size_t room)
{
    size_t have = 0;
    while (have < room) {
        size_t chunk = PAGE - ((from + have) & (PAGE - 1));
        if (chunk > room - have)
            chunk = room - have;
        int fault = memory_read(to + have, from + have, chunk);
        if (fault < 0)
            return fault;
        if (memchr(to + have, 0, chunk) != NULL)
            return 0;
        have += chunk;
    }
    return -EINVAL;
}
