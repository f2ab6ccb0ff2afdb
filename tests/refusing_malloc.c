/* Loaded before the C library (LD_PRELOAD): the allocation whose number stands in REFUSED, counted from 1, is refused, and with AND_ON all that come after
   it; no other is, and none of the programs that this one starts. With FROM_ACCEPT they are counted from the first call of accept4 on. The file TOLD is made when
   one is refused, where it is named. */
#define _GNU_SOURCE
#include <dlfcn.h>
#include <errno.h>
#include <fcntl.h>
#include <stdlib.h>
#include <sys/socket.h>
#include <sys/stat.h>
#include <sys/syscall.h>
#include <unistd.h>

extern void *__libc_malloc(size_t size);
extern void *__libc_realloc(void *block, size_t size);

static long left;
static int and_on, counts;
static const char *told;
static __typeof__(&accept4) next_accept4;

__attribute__((constructor)) static void begin(void) {
    const char *number = getenv("REFUSED");
    left = number ? atol(number) : 0;
    and_on = number && getenv("AND_ON");
    counts = !getenv("FROM_ACCEPT");
    told = getenv("TOLD");
    next_accept4 = (__typeof__(next_accept4))dlsym(RTLD_NEXT, "accept4");
    unsetenv("LD_PRELOAD");
}

/* Threads count together; past the refused one the count only falls. */
static int refused(void) {
    if (!__atomic_load_n(&counts, __ATOMIC_RELAXED))
        return 0;
    long number = __atomic_fetch_sub(&left, 1, __ATOMIC_RELAXED);
    if (number != 1 && !(and_on && number < 1))
        return 0;
    /* without a descriptor, since a test may count those just now */
    if (told)
        syscall(SYS_mknodat, AT_FDCWD, told, S_IFREG | 0600, 0);
    errno = ENOMEM;
    return 1;
}

void *malloc(size_t size) {
    return refused() ? NULL : __libc_malloc(size);
}

void *realloc(void *block, size_t size) {
    return refused() ? NULL : __libc_realloc(block, size);
}

int accept4(int file, __SOCKADDR_ARG name, socklen_t *length, int flags) {
    __atomic_store_n(&counts, 1, __ATOMIC_RELAXED);
    return next_accept4(file, name, length, flags);
}
